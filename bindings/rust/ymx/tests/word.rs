use ymx::{Got, Role, Session, Touched};

#[test]
fn a_word_goes_across() {
    let mut client = Session::new(Role::Client, 262_144, 0).unwrap();
    let mut server = Session::new(Role::Server, 262_144, 0).unwrap();
    let id = client.open().unwrap();
    assert_eq!(client.write(id, b"hello").unwrap(), Some(5));
    client.finish(id).unwrap();
    let mut wire = [0; 256];
    let count = client.emit(&mut wire).unwrap();
    assert!(!client.due());
    assert_eq!(server.feed(&wire[..count]).unwrap(), count);
    assert_eq!(server.accept().unwrap(), Some(id));
    let mut word = [0; 16];
    assert_eq!(server.read(id, &mut word).unwrap(), Got::Bytes(5));
    assert_eq!(&word[..5], b"hello");
    assert_eq!(server.read(id, &mut word).unwrap(), Got::End);
}

#[test]
fn refusals_have_names() {
    assert_eq!(Session::new(Role::Client, 1, 0).err().unwrap().name(), "BAD_WINDOW");
    let mut session = Session::new(Role::Server, 262_144, 0).unwrap();
    assert_eq!(session.write(7, b"x").unwrap_err().name(), "NO_STREAM");
    assert_eq!(session.feed(&[1; 12]).unwrap(), 12);
    assert_eq!((session.status(), session.open().unwrap_err().name()), (101, "LOST"));
    session.close();
    assert_eq!(
        session.open().unwrap_err().to_string(),
        "CLOSED: this side has closed the session; make another"
    );
}

#[test]
fn memory_goes_back_and_no_byte_of_it() {
    let mut client = Session::new(Role::Client, 262_144, 0).unwrap();
    let mut server = Session::new(Role::Server, 262_144, 0).unwrap();
    let mut wire = vec![0; 300_000];
    let text: Vec<u8> = (0..262_144).map(|at| (at % 251) as u8).collect();
    let id = client.open().unwrap();
    assert_eq!((client.opens_left(), client.is_peer_away()), (255, false));
    assert_eq!(client.write(id, &text).unwrap(), Some(262_144));
    let count = client.emit(&mut wire).unwrap();
    server.feed(&wire[..count]).unwrap();
    assert_eq!(server.accept().unwrap(), Some(id));
    assert_eq!(server.unread_count(id), 262_144);
    assert!(client.shrink(id).unwrap() || client.shrink_spare());
    assert!(server.shrink(id).unwrap() || server.shrink_spare());
    let mut read = vec![0; 262_144];
    assert_eq!(server.read(id, &mut read).unwrap(), Got::Bytes(262_144));
    assert_eq!((read == text, server.unread_count(id)), (true, 0));
    assert_eq!(server.shrink(9).unwrap_err().name(), "NO_STREAM");
    server.go_away().unwrap();
    let count = server.emit(&mut wire).unwrap();
    client.feed(&wire[..count]).unwrap();
    assert_eq!((client.opens_left(), client.is_peer_away()), (0, true));
}

#[test]
fn touched_streams_are_named() {
    let mut client = Session::new(Role::Client, 262_144, 0).unwrap();
    let mut server = Session::new(Role::Server, 262_144, 0).unwrap();
    let mut touched = Touched::new().unwrap();
    let mut wire = [0; 256];
    let (busy, idle) = (client.open().unwrap(), client.open().unwrap());
    let count = client.emit(&mut wire).unwrap();
    server.feed_touching(&wire[..count], &mut touched).unwrap();
    assert_eq!((touched.ids().unwrap(), server.offered()), (vec![busy, idle], 2));
    touched.clear();
    assert_eq!(client.room(busy), 262_144);
    client.write(busy, b"lent").unwrap();
    client.finish(busy).unwrap();
    client.ping().unwrap();
    let count = client.emit(&mut wire).unwrap();
    server.feed_touching(&wire[..count], &mut touched).unwrap();
    assert_eq!((touched.ids().unwrap(), touched.has_pong()), (vec![busy], false));
    server.accept().unwrap();
    assert_eq!(server.unread(busy), b"lent");
    server.consume(busy, 4).unwrap();
    assert!(server.unread(busy).is_empty() && server.is_at_end(busy));
}

#[test]
fn faults_have_numbers_and_names() {
    use ymx::Fault;
    for number in 1..10 {
        let fault = Fault::of_number(number).unwrap();
        assert_eq!(fault.number(), number);
        assert_eq!(fault.name(), format!("B{number}"));
        assert!(fault.to_string().starts_with(&format!("B{number}: ")));
    }
    assert_eq!((Fault::of_number(0), Fault::of_number(10)), (None, None));
    let mut session = Session::new(Role::Server, ymx::LEAST_WINDOW, 0).unwrap();
    assert_eq!(session.fault(), None);
    session.feed(&[0, 4, 0, 0, 0, 0, 0, 0, 0, 0, 0, 0]).unwrap(); // a type above 3
    assert_eq!(session.fault(), Some(Fault::UnknownType));
}

#[test]
fn the_limits_are_those_that_the_library_keeps() {
    let mut client = Session::new(Role::Client, ymx::WIDEST_WINDOW, 0).unwrap();
    let mut opened = 0;
    while client.open().is_ok() {
        opened += 1;
    }
    assert_eq!(opened, ymx::MOST_OPENS_PENDING);
    let mut pings = 0;
    while client.ping().is_ok() {
        pings += 1;
    }
    assert_eq!(pings, ymx::MOST_PINGS_PENDING);
    assert!(Session::new(Role::Client, ymx::WIDEST_WINDOW + 1, 0).is_err());
    assert!(Session::new(Role::Client, ymx::LEAST_WINDOW - 1, 0).is_err());
    assert!(ymx::version().starts_with("0."));
}
