use std::io::{self, ErrorKind, Read, Write};
use std::net::{Shutdown, TcpListener, TcpStream};
use std::thread;
use std::time::{Duration, Instant};
use ymx::{Connection, Ended, Fault, Refused, Role, Side};

fn sockets() -> (TcpStream, TcpStream) {
    let listener = TcpListener::bind("127.0.0.1:0").unwrap();
    let near = TcpStream::connect(listener.local_addr().unwrap()).unwrap();
    (near, listener.accept().unwrap().0)
}

fn pair() -> (Connection, Connection) {
    let (near, far) = sockets();
    (
        Connection::over(Role::Client, near).unwrap(),
        Connection::over(Role::Server, far).unwrap(),
    )
}

fn text(seed: usize, size: usize) -> Vec<u8> {
    (0..size).map(|at| (at * 31 + at / 251 * 7 + seed) as u8).collect()
}

/// How long is waited for what must come: only what hangs comes to it.
const HANGS: Duration = Duration::from_secs(60);

fn soon(holds: impl Fn() -> bool) {
    let began = Instant::now();
    while !holds() {
        assert!(began.elapsed() < HANGS, "it doesn't come to hold");
        thread::sleep(Duration::from_millis(5));
    }
}

#[test]
fn many_streams_carry_their_bytes() {
    let (client, server) = pair();
    thread::scope(|threads| {
        let server = &server;
        threads.spawn(move || {
            for _ in 0..100 {
                let (mut reader, mut writer) = server.accept().unwrap();
                thread::spawn(move || {
                    io::copy(&mut reader, &mut writer).unwrap();
                    writer.finish().unwrap();
                });
            }
        });
        for number in 0..100 {
            let (mut reader, mut writer) = client.open().unwrap();
            threads.spawn(move || {
                let sent = text(number, number * 7919);
                let back = thread::scope(|inner| {
                    let back = inner.spawn(|| {
                        let mut back = Vec::new();
                        reader.read_to_end(&mut back).map(|_| back)
                    });
                    writer.write_all(&sent).unwrap();
                    writer.finish().unwrap();
                    back.join().unwrap().unwrap()
                });
                assert!(back == sent, "stream {number}");
            });
        }
    });
    client.ping().unwrap();
    soon(|| client.stream_count() == 0 && server.stream_count() == 0);
}

#[test]
fn a_dropped_reader_throws_away_what_comes() {
    let (client, server) = pair();
    let (reader, writer) = client.open().unwrap();
    let (_, mut far) = server.accept().unwrap();
    drop(reader);
    far.write_all(&text(1, 1_000_000)).unwrap();
    far.finish().unwrap();
    writer.finish().unwrap();
    soon(|| client.stream_count() == 0);
}

/// More downloads than a session has streams are given up early: each of their writers learns of it.
#[test]
fn who_writes_to_nobody_is_reset() {
    let (client, server) = pair();
    thread::scope(|threads| {
        let server = &server;
        threads.spawn(move || {
            for _ in 0..1100 {
                let (mut reader, mut writer) = server.accept().unwrap();
                thread::spawn(move || {
                    let error = writer.write_all(&[0; 1_000_000]).unwrap_err();
                    assert_eq!(error.kind(), ErrorKind::ConnectionReset);
                    assert!(reader.read(&mut [0]).is_err());
                });
            }
        });
        for _ in 0..1100 {
            soon(|| client.stream_count() < 500);
            let (mut reader, writer) = client.open().unwrap();
            reader.read_exact(&mut [0; 10]).unwrap();
            writer.finish().unwrap();
            drop(reader);
        }
    });
    soon(|| client.stream_count() == 0 && server.stream_count() == 0);
}

/// What is on its way together with the peer's end resets nothing, so the peer still reads all that was written.
#[test]
fn an_end_that_crosses_is_no_reset() {
    let (client, server) = pair();
    for _ in 0..200 {
        let (reader, mut writer) = client.open().unwrap();
        let (mut far_reader, mut far) = server.accept().unwrap();
        writer.write_all(b"all").unwrap();
        far.write_all(b"x").unwrap();
        far.finish().unwrap();
        server.ping().unwrap();
        writer.finish().unwrap();
        drop(reader);
        client.ping().unwrap();
        let mut came = String::new();
        far_reader.read_to_string(&mut came).unwrap();
        assert_eq!(came, "all");
    }
}

#[test]
fn a_reset_reaches_both_sides() {
    let (client, server) = pair();
    let (mut reader, mut writer) = client.open().unwrap();
    server.accept().unwrap().0.reset();
    assert_eq!(reader.read(&mut [0; 9]).unwrap_err().kind(), ErrorKind::ConnectionReset);
    assert_eq!(writer.write(b"x").unwrap_err().kind(), ErrorKind::ConnectionReset);
    assert_eq!(writer.finish().unwrap_err().kind(), ErrorKind::ConnectionReset);
    drop(reader);
    soon(|| client.stream_count() == 0 && server.stream_count() == 0);
}

#[test]
fn a_lost_connection_is_no_end() {
    let (near, far) = sockets();
    let cut = far.try_clone().unwrap();
    let (client, server) = (
        Connection::over(Role::Client, near).unwrap(),
        Connection::over(Role::Server, far).unwrap(),
    );
    let (mut reader, mut writer) = client.open().unwrap();
    let (_kept, mut far) = server.accept().unwrap();
    far.write_all(b"a beginning").unwrap();
    server.ping().unwrap();
    cut.shutdown(Shutdown::Both).unwrap();
    let mut came = Vec::new();
    assert_eq!(
        reader.read_to_end(&mut came).unwrap_err().kind(),
        ErrorKind::ConnectionAborted
    );
    assert_eq!(came, b"a beginning");
    assert_eq!(writer.write(b"x").unwrap_err().kind(), ErrorKind::ConnectionAborted);
    assert!(client.open().is_err() && client.accept().is_err() && client.ping().is_err());
}

#[test]
fn a_close_sends_what_is_due() {
    let (client, server) = pair();
    let (_, mut writer) = client.open().unwrap();
    let (mut reader, _kept) = server.accept().unwrap();
    writer.write_all(&text(2, 200_000)).unwrap();
    writer.finish().unwrap();
    client.close();
    let mut came = Vec::new();
    reader.read_to_end(&mut came).unwrap();
    assert!(came == text(2, 200_000));
}

#[test]
fn a_closed_connection_ends_no_stream() {
    for _ in 0..50 {
        let (client, server) = pair();
        let (_other, mut writer) = client.open().unwrap();
        let (mut reader, _kept) = server.accept().unwrap();
        writer.write_all(&text(3, 100_000)).unwrap();
        client.close();
        drop(writer);
        assert!(reader.read_to_end(&mut Vec::new()).is_err());
    }
}

#[test]
fn opens_wait_where_256_are_not_acknowledged() {
    let (client, server) = pair();
    let kept: Vec<_> = (0..256).map(|_| client.open().unwrap()).collect();
    thread::scope(|threads| {
        let opening = threads.spawn(|| client.open().map(drop));
        thread::sleep(Duration::from_millis(30));
        assert!(!opening.is_finished());
        let _accepted = server.accept().unwrap();
        opening.join().unwrap().unwrap();
    });
    assert_eq!(kept.len(), 256);
}

#[test]
fn go_away_is_told() {
    let (client, server) = pair();
    server.go_away().unwrap();
    client.ping().unwrap();
    assert_eq!(
        client.open().err().unwrap().to_string(),
        "PEER_AWAY: the peer takes no more streams; open them in another session"
    );
}

#[test]
fn pings_wait_for_one_another() {
    let (client, _server) = pair();
    thread::scope(|threads| {
        for _ in 0..40 {
            threads.spawn(|| client.ping().unwrap());
        }
    });
}

/// Whoever calls and waits when a connection breaks off gets back, whatever the others do.
#[test]
fn a_cut_connection_lets_everybody_go() {
    for round in 0..20 {
        let (near, far) = sockets();
        let cut = near.try_clone().unwrap();
        let sides = [
            Connection::over(Role::Client, near).unwrap(),
            Connection::over(Role::Server, far).unwrap(),
        ];
        thread::scope(|threads| {
            let pass = move |reader: ymx::ReadHalf, writer: ymx::WriteHalf| {
                let (mut reader, mut writer) = (reader, writer);
                threads.spawn(move || io::copy(&mut reader, &mut io::sink()).is_ok());
                threads.spawn(move || while writer.write_all(&[7; 50_000]).is_ok() {});
            };
            for side in &sides {
                threads.spawn(move || {
                    while let Ok((reader, writer)) = side.accept() {
                        pass(reader, writer);
                    }
                });
                threads.spawn(move || {
                    for number in 0.. {
                        match (side.open(), number % 4) {
                            (Err(_), _) => return,
                            (Ok((reader, _)), 0) => reader.reset(),
                            (Ok(halves), 1) => drop(halves),
                            (Ok((reader, writer)), _) if number < 100 => pass(reader, writer),
                            _ => thread::sleep(Duration::from_millis(1)),
                        }
                    }
                });
                threads.spawn(move || while side.ping().is_ok() {});
            }
            thread::sleep(Duration::from_millis(3 * round));
            if round % 2 == 0 {
                cut.shutdown(Shutdown::Both).unwrap();
            } else {
                sides[1].close();
            }
        });
    }
}

// ---- no error looks like an end

/// What half a text reads as at the peer, where the writing half goes as this says.
fn half_a_text(go: impl FnOnce(ymx::WriteHalf)) -> (Vec<u8>, io::Result<usize>) {
    let (client, server) = pair();
    let (_reader, mut writer) = client.open().unwrap();
    writer.write_all(b"half a text").unwrap();
    let (mut far, _kept) = server.accept().unwrap();
    let mut came = vec![0; 11];
    far.read_exact(&mut came).unwrap();
    go(writer);
    (came, far.read(&mut [0]))
}

#[test]
fn a_dropped_writer_is_no_end() {
    let fails = |mut writer: ymx::WriteHalf| -> io::Result<()> {
        Err(io::Error::from(ErrorKind::InvalidData))?;
        writer.write_all(b"the rest")?;
        writer.finish()
    };
    let panics = |writer: ymx::WriteHalf| {
        let done = thread::Builder::new().spawn(move || {
            let _writer = writer;
            std::panic::resume_unwind(Box::new(0));
        });
        assert!(done.unwrap().join().is_err());
    };
    let ways: [Box<dyn FnOnce(ymx::WriteHalf)>; 3] = [
        Box::new(drop),
        Box::new(move |writer| assert!(fails(writer).is_err())),
        Box::new(panics),
    ];
    for way in ways {
        let (came, then) = half_a_text(way);
        assert_eq!(came, b"half a text");
        assert_eq!(then.unwrap_err().kind(), ErrorKind::ConnectionReset);
    }
    let (_, then) = half_a_text(|writer| writer.finish().unwrap());
    assert_eq!(then.unwrap(), 0);
}

#[test]
fn dropped_halves_let_the_stream_go() {
    let (client, server) = pair();
    let accepting = thread::spawn(move || {
        while server.accept().is_ok() {}
        server
    });
    for _ in 0..30 {
        for _ in 0..100 {
            let (_, mut writer) = client.open().unwrap();
            let _ = writer.write_all(b"x"); // unless the server was sooner
        }
        client.ping().unwrap(); // no more than 1,024 have something unsent
    }
    soon(|| client.stream_count() == 0);
    client.ping().unwrap();
    client.close();
    assert_eq!(accepting.join().unwrap().stream_count(), 0);
}

// ---- behind the end

/// Frames by the specification: streams 1, 3 and 5, each Data with a SYN and a text, and one with a FIN.
fn three_streams(size: usize) -> Vec<u8> {
    let mut frames = Vec::new();
    for stream in [1, 3, 5] {
        frames.extend_from_slice(&[0, 0, 0, 1, 0, 0, 0, stream]);
        frames.extend_from_slice(&(size as u32).to_be_bytes());
        frames.resize(frames.len() + size, stream);
        frames.extend_from_slice(&[0, 0, 0, 4, 0, 0, 0, stream, 0, 0, 0, 0]);
    }
    frames
}

/// All streams that are still given, by what they read.
fn accepted(server: &Connection) -> Vec<(u8, io::Result<usize>)> {
    let mut came = Vec::new();
    loop {
        let (mut reader, writer) = match server.accept_within(HANGS) {
            Ok(halves) => halves,
            Err(error) => {
                assert_eq!(error.kind(), ErrorKind::ConnectionAborted);
                return came;
            }
        };
        let mut text = Vec::new();
        let read = reader.read_to_end(&mut text);
        assert!(text.iter().all(|byte| *byte == text[0]));
        came.push((text[0], read.map(|_| text.len())));
        drop(writer);
    }
}

fn assert_whole(came: Vec<(u8, io::Result<usize>)>, size: usize) {
    let sizes: Vec<_> = came.into_iter().map(|(byte, read)| (byte, read.unwrap())).collect();
    assert_eq!(sizes, [(1, size), (3, size), (5, size)]);
}

#[test]
fn all_streams_that_came_whole_are_accepted() {
    for round in 0..20 {
        // the peer hangs up
        let (mut near, far) = sockets();
        near.write_all(&three_streams(1000)).unwrap();
        drop(near);
        let server = Connection::over(Role::Server, far).unwrap();
        if round % 2 == 0 {
            soon(|| server.ended().is_some());
        }
        assert_whole(accepted(&server), 1000);

        // the peer shuts its writing side, and reads on
        let (mut near, far) = sockets();
        let peer = thread::spawn(move || {
            near.write_all(&three_streams(250_000)).unwrap();
            near.shutdown(Shutdown::Write).unwrap();
            near.read_to_end(&mut Vec::new()).unwrap();
        });
        let server = Connection::over(Role::Server, far).unwrap();
        if round % 2 == 0 {
            soon(|| server.ended().is_some());
        }
        assert_whole(accepted(&server), 250_000);
        peer.join().unwrap();
    }
}

/// Writing fails from the first byte on, and what has come is read all the same.
#[test]
fn what_has_come_is_read_where_writing_fails() {
    struct Broken;
    impl Write for Broken {
        fn write(&mut self, _: &[u8]) -> io::Result<usize> {
            Err(ErrorKind::BrokenPipe.into())
        }
        fn flush(&mut self) -> io::Result<()> {
            Ok(())
        }
    }
    struct Slow(io::Cursor<Vec<u8>>);
    impl Read for Slow {
        fn read(&mut self, buffer: &mut [u8]) -> io::Result<usize> {
            thread::sleep(Duration::from_millis(1));
            let most = buffer.len().min(10_000);
            self.0.read(&mut buffer[..most])
        }
    }
    let mut bytes = vec![0, 2, 0, 1, 0, 0, 0, 0, 0, 0, 0, 7]; // a ping, whose answer can't be written
    bytes.extend(three_streams(100_000));
    let side = Side {
        reader: Box::new(Slow(io::Cursor::new(bytes))),
        writer: Box::new(Broken),
        shut: Box::new(|| ()),
    };
    let server = Connection::begin(Role::Server, 262_144, side).unwrap();
    assert_whole(accepted(&server), 100_000);
}

#[test]
fn a_stream_that_did_not_come_whole_is_told_so() {
    let (mut near, far) = sockets();
    near.write_all(&three_streams(1000)[..1500]).unwrap();
    drop(near);
    let server = Connection::over(Role::Server, far).unwrap();
    soon(|| server.ended().is_some());
    let came = accepted(&server);
    assert_eq!(came.len(), 2);
    assert_eq!(*came[0].1.as_ref().unwrap(), 1000);
    assert_eq!(came[1].1.as_ref().unwrap_err().kind(), ErrorKind::ConnectionAborted);
}

#[test]
fn behind_a_close_nothing_is_accepted() {
    let (client, server) = pair();
    let kept = client.open().unwrap();
    client.ping().unwrap();
    server.close();
    assert_eq!(server.accept().err().unwrap().kind(), ErrorKind::ConnectionAborted);
    drop(kept);
}

// ---- why it has ended

/// Why, by the inner error of what a call answers.
fn why(error: io::Error) -> Ended {
    assert_eq!(error.kind(), ErrorKind::ConnectionAborted);
    *error.get_ref().unwrap().downcast_ref::<Ended>().unwrap()
}

#[test]
fn the_fault_of_a_broken_connection_is_told() {
    let (mut near, far) = sockets();
    let server = Connection::over(Role::Server, far).unwrap();
    assert_eq!(server.ended(), None);
    near.write_all(&[9; 12]).unwrap();
    let error = server.accept().err().unwrap();
    assert_eq!(
        error.to_string(),
        "the connection broke: B1: a frame's version is not 0; see that the peer speaks yamux"
    );
    assert_eq!(why(error), Ended::Broken(Fault::BadVersion));
    assert_eq!(server.ended(), Some(Ended::Broken(Fault::BadVersion)));
    // and the peer is told: a Go Away with code 1
    let mut told = Vec::new();
    near.read_to_end(&mut told).unwrap();
    assert_eq!(told, [0, 3, 0, 0, 0, 0, 0, 0, 0, 0, 0, 1]);
}

#[test]
fn who_has_ended_it_is_told() {
    let (client, server) = pair();
    client.close();
    assert_eq!(why(client.open().err().unwrap()), Ended::Here);
    assert_eq!(why(server.accept().err().unwrap()), Ended::Peer);
    assert_eq!(why(server.ping().err().unwrap()), Ended::Peer);
}

// ---- time

fn assert_times_out<T>(call: impl FnOnce() -> io::Result<T>) {
    let began = Instant::now();
    let error = call().err().unwrap();
    assert_eq!(error.kind(), ErrorKind::TimedOut, "{error}");
    assert!(began.elapsed() >= Duration::from_millis(50));
}

#[test]
fn each_call_that_waits_can_time_out() {
    const SHORT: Duration = Duration::from_millis(50);
    let (near, mut deaf) = sockets(); // nobody answers
    let client = Connection::over(Role::Client, near).unwrap();
    assert_times_out(|| client.accept_within(SHORT));
    for _ in 0..3 {
        assert_times_out(|| client.ping_within(SHORT));
    }
    let (mut reader, mut writer) = client.open().unwrap();
    let _kept: Vec<_> = (0..255).map(|_| client.open().unwrap()).collect();
    assert_times_out(|| client.open_within(SHORT));
    reader.set_read_timeout(Some(SHORT));
    writer.set_write_timeout(Some(SHORT));
    assert_times_out(|| reader.read(&mut [0]));
    writer.write_all(&text(0, 262_144)).unwrap();
    assert_times_out(|| writer.write(b"x"));
    // and it goes on: the answers to the pings, bytes and credit for stream 1
    for number in 1..4 {
        deaf.write_all(&[0, 2, 0, 2, 0, 0, 0, 0, 0, 0, 0, number]).unwrap();
    }
    deaf.write_all(&[
        0, 1, 0, 2, 0, 0, 0, 1, 0, 0, 0, 1, 0, 0, 0, 0, 0, 0, 0, 1, 0, 0, 0, 1, 7,
    ])
    .unwrap();
    reader.set_read_timeout(None);
    let mut byte = [0];
    reader.read_exact(&mut byte).unwrap();
    assert_eq!((byte, writer.write(b"xy").unwrap()), ([7], 1));
}

#[test]
fn a_write_that_times_out_sends_each_byte_once() {
    let (client, server) = pair();
    let (_reader, mut writer) = client.open().unwrap();
    let (mut far_reader, _far) = server.accept().unwrap();
    let sent = text(9, 2_000_000);
    let reading = thread::spawn(move || {
        let mut came = Vec::new();
        let mut block = [0; 50_000];
        loop {
            match far_reader.read(&mut block).unwrap() {
                0 => return came,
                count => came.extend_from_slice(&block[..count]),
            }
            thread::sleep(Duration::from_millis(1));
        }
    });
    writer.set_write_timeout(Some(Duration::from_micros(100)));
    let (mut rest, mut timeouts) = (&sent[..], 0);
    while !rest.is_empty() {
        match writer.write(rest) {
            Ok(count) => rest = &rest[count..],
            Err(error) => {
                assert_eq!(error.kind(), ErrorKind::TimedOut);
                timeouts += 1;
            }
        }
    }
    writer.finish().unwrap();
    assert!(timeouts > 0);
    assert!(reading.join().unwrap() == sent);
}

#[test]
fn pings_that_were_given_up_make_room_once_they_are_answered() {
    let (near, mut far) = sockets();
    let client = Connection::over(Role::Client, near).unwrap();
    let peer = thread::spawn(move || {
        let mut ping = [0; 12];
        let mut count = 0;
        while far.read_exact(&mut ping).is_ok() {
            thread::sleep(Duration::from_millis(2));
            ping[3] = 2; // the answer
            let _ = far.write_all(&ping);
            count += 1;
        }
        count
    });
    for _ in 0..5 {
        for _ in 0..20 {
            assert!(client.ping_within(Duration::ZERO).is_err());
        }
        client.ping_within(Duration::from_secs(20)).unwrap();
    }
    client.close_and_wait().unwrap();
    assert!(peer.join().unwrap() > 5 * 16);
}

// ---- closing

/// How many threads this process has whose names begin with this.
fn threads(name: &str) -> usize {
    std::fs::read_dir("/proc/self/task")
        .unwrap()
        .filter_map(|task| std::fs::read_to_string(task.ok()?.path().join("comm")).ok())
        .filter(|comm| comm.starts_with(name))
        .count()
}

/// The name of a thread is that of the process's other tests, too: so this one runs in a process of its own.
#[test]
fn a_dropped_connection_leaves_no_thread_though_the_peer_reads_nothing() {
    const ALONE: &str = "YMX_TEST_ALONE";
    if std::env::var_os(ALONE).is_none() {
        let name = "a_dropped_connection_leaves_no_thread_though_the_peer_reads_nothing";
        let status = std::process::Command::new(std::env::current_exe().unwrap())
            .args(["--exact", name, "--nocapture"])
            .env(ALONE, "1")
            .status();
        assert!(status.unwrap().success());
        return;
    }
    let (near, _deaf) = sockets();
    let client = Connection::over(Role::Client, near).unwrap();
    const LINGER: Duration = Duration::from_secs(2);
    client.set_linger(LINGER);
    let mut kept = Vec::new();
    for _ in 0..60 {
        let (reader, mut writer) = client.open().unwrap();
        writer.write_all(&[0; 262_144]).unwrap();
        kept.push((reader, writer));
    }
    assert_eq!(threads("ymx"), 2);
    let began = Instant::now();
    drop(client);
    assert!(began.elapsed() < LINGER);
    soon(|| threads("ymx") == 0);
    assert!(began.elapsed() >= LINGER - Duration::from_millis(10));
    drop(kept);
}

#[test]
fn a_close_that_waits_says_whether_all_was_taken() {
    let (client, server) = pair();
    let reading = thread::spawn(move || {
        let mut sizes = Vec::new();
        while let Ok((mut reader, _writer)) = server.accept() {
            thread::sleep(Duration::from_millis(20));
            sizes.push(reader.read_to_end(&mut Vec::new()).unwrap());
        }
        sizes
    });
    for _ in 0..20 {
        let (_reader, mut writer) = client.open().unwrap();
        writer.write_all(&[1; 200_000]).unwrap();
        writer.finish().unwrap();
    }
    client.close_and_wait().unwrap();
    client.close_and_wait().unwrap();
    assert_eq!(reading.join().unwrap(), vec![200_000; 20]);

    let (near, _deaf) = sockets();
    let client = Connection::over(Role::Client, near).unwrap();
    client.set_linger(Duration::from_millis(100));
    let (_reader, mut writer) = client.open().unwrap();
    writer.write_all(b"x").unwrap();
    assert_times_out(|| client.close_and_wait());

    let (near, far) = sockets();
    let client = Connection::over(Role::Client, near).unwrap();
    drop(far);
    soon(|| client.ended().is_some());
    client.close_and_wait().unwrap(); // nothing was written
}

/// The peer goes on sending while this side closes, and reads slowly. A socket that was shut both ways would drop what it
/// still has to send.
#[test]
fn a_close_loses_nothing_though_the_peer_still_sends() {
    struct Slow(TcpStream);
    impl Read for Slow {
        fn read(&mut self, buffer: &mut [u8]) -> io::Result<usize> {
            thread::sleep(Duration::from_millis(1));
            self.0.read(buffer)
        }
    }
    for _ in 0..5 {
        let (near, far) = sockets();
        let client = Connection::over(Role::Client, near).unwrap();
        let reader = Box::new(Slow(far.try_clone().unwrap()));
        let side = Side {
            reader,
            ..Side::try_from(far).unwrap()
        };
        let server = Connection::begin(Role::Server, 262_144, side).unwrap();
        let peer = thread::spawn(move || {
            let mut sizes = Vec::new();
            while let Ok((mut reader, mut writer)) = server.accept() {
                let _ = writer.write_all(&[0; 262_144]); // all that it has credit for, if the client is still there
                sizes.push(reader.read_to_end(&mut Vec::new()).map_err(|error| error.kind()));
            }
            sizes
        });
        let kept: Vec<_> = (0..20)
            .map(|_| {
                let (reader, mut writer) = client.open().unwrap();
                writer.write_all(&text(4, 250_000)).unwrap();
                writer.finish().unwrap();
                reader
            })
            .collect();
        client.close();
        assert_eq!(peer.join().unwrap(), vec![Ok(250_000); 20]);
        drop(kept);
    }
}

#[test]
fn refusals_are_told_by_their_names() {
    let (client, server) = pair();
    server.go_away().unwrap();
    client.ping().unwrap();
    let error = client.open().err().unwrap();
    let refused = error.get_ref().unwrap().downcast_ref::<Refused>().unwrap();
    assert_eq!((error.kind(), refused.name()), (ErrorKind::Other, "PEER_AWAY"));
}
