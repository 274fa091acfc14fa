//! What programs do with any stream of the standard library's.

use std::error::Error;
use std::fmt::Debug;
use std::io::{self, BufRead, BufReader, ErrorKind, IoSlice, Read, Write};
use std::net::{TcpListener, TcpStream};
use std::thread;
use std::time::{Duration, Instant};
use ymx::{Connection, Ended, Fault, ReadHalf, Role, Session, Side, Stream, Touched, WriteHalf};

fn sockets() -> (TcpStream, TcpStream) {
    let listener = TcpListener::bind("127.0.0.1:0").unwrap();
    let near = TcpStream::connect(listener.local_addr().unwrap()).unwrap();
    (near, listener.accept().unwrap().0)
}

fn pair() -> (Connection, Connection) {
    let (near, far) = sockets();
    (
        Connection::over(Role::Client, near).unwrap(),
        Connection::over(Role::Server, far).unwrap(),
    )
}

fn streams(client: &Connection, server: &Connection) -> (Stream, Stream) {
    (client.open().unwrap().into(), server.accept().unwrap().into())
}

#[test]
fn a_stream_is_read_and_written_through_references() {
    let (client, server) = pair();
    let (near, far) = streams(&client, &server);
    let echo = thread::spawn(move || {
        io::copy(&mut &far, &mut &far).unwrap();
        far.finish().unwrap();
    });
    let text = vec![7; 1_000_000];
    let mut back = Vec::new();
    thread::scope(|threads| {
        threads.spawn(|| {
            (&near).write_all(&text).unwrap();
            near.finish().unwrap();
        });
        (&near).read_to_end(&mut back).unwrap();
    });
    assert!(back == text);
    assert_eq!((&near).write(b"x").unwrap_err().kind(), ErrorKind::BrokenPipe);
    echo.join().unwrap();
    drop(near);
    let (reader, writer) = streams(&client, &server).0.split();
    drop(reader);
    drop(writer);
}

#[test]
fn one_stream_serves_a_buffered_reader_and_a_writer() {
    let (client, server) = pair();
    let (near, far) = streams(&client, &server);
    let mut lines = BufReader::new(far);
    writeln!(&near, "one").unwrap();
    writeln!(&near, "two").unwrap();
    let mut line = String::new();
    lines.read_line(&mut line).unwrap();
    lines.read_line(&mut line).unwrap();
    assert_eq!(line, "one\ntwo\n");
    lines.get_mut().write_all(b"answer").unwrap();
    lines.into_inner().split().0.reset();
    let error = (&near).read_to_end(&mut Vec::new()).unwrap_err();
    assert_eq!(error.kind(), ErrorKind::ConnectionReset);
}

#[test]
fn all_slices_are_written() {
    let (client, server) = pair();
    let (mut near, mut far) = streams(&client, &server);
    let slices = [IoSlice::new(b""), IoSlice::new(b"ab"), IoSlice::new(b"cd")];
    assert_eq!(near.write_vectored(&slices).unwrap(), 4);
    assert_eq!(near.write_vectored(&slices[..1]).unwrap(), 0);
    let big = vec![1; 200_000];
    let slices = [IoSlice::new(&big), IoSlice::new(&big)];
    let count = near.write_vectored(&slices).unwrap();
    assert_eq!(count, 262_144 - 4); // the credit of a fresh stream, by the specification
    near.finish().unwrap();
    let mut came = Vec::new();
    far.read_to_end(&mut came).unwrap();
    assert_eq!(&came[..4], b"abcd");
    assert_eq!(came.len(), 262_144);
}

#[test]
fn a_clone_keeps_the_connection() {
    let (client, server) = pair();
    let other = client.clone();
    drop(client);
    let (mut near, mut far) = streams(&other, &server);
    near.write_all(b"word").unwrap();
    far.read_exact(&mut [0; 4]).unwrap();
    drop(other);
    assert_eq!(server.accept().unwrap_err().kind(), ErrorKind::ConnectionAborted);
}

#[test]
fn everything_says_what_it_is() {
    fn is<T: Debug + Send>() {}
    is::<Connection>();
    is::<ReadHalf>();
    is::<WriteHalf>();
    is::<Stream>();
    is::<Session>();
    is::<Touched>();
    is::<Side>();
    let fault: Box<dyn Error + Send + Sync> = Fault::BadSyn.into();
    assert!(fault.to_string().contains("B3: "));
    let (client, server) = pair();
    let (near, _far) = streams(&client, &server);
    assert!(format!("{near:?}").contains("stream 1"), "{near:?}");
    assert!(format!("{client:?}").contains("1 streams"), "{client:?}");
}

#[test]
fn a_keepalive_ends_a_connection_whose_peer_is_silent() {
    let (client, server) = pair();
    client.keep_alive(Duration::from_secs(2)).unwrap();
    thread::sleep(Duration::from_secs(5));
    assert_eq!(client.ended(), None); // the peer answers
    client.keep_alive(Duration::from_millis(20)).unwrap();
    drop(server);
    assert!(client.accept().is_err());

    let (near, _silent) = sockets();
    let client = Connection::over(Role::Client, near).unwrap();
    let (mut reader, _writer) = client.open().unwrap();
    client.keep_alive(Duration::from_millis(50)).unwrap();
    let began = Instant::now();
    let error = reader.read(&mut [0]).unwrap_err();
    assert_eq!(error.kind(), ErrorKind::ConnectionAborted);
    assert_eq!(client.ended(), Some(Ended::Silent));
    assert!(began.elapsed() < Duration::from_secs(20));
    client.close_and_wait().unwrap();
}

#[test]
fn memory_goes_back_where_the_last_stream_has_gone() {
    let (client, server) = pair();
    for waits in [false, true] {
        let (near, mut far) = streams(&client, &server);
        (&near).write_all(&[1; 200_000]).unwrap();
        near.finish().unwrap();
        far.finish().unwrap();
        io::copy(&mut far, &mut io::sink()).unwrap();
        drop((near, far));
        while client.stream_count() > 0 {
            thread::sleep(Duration::from_millis(1));
        }
        if waits {
            thread::sleep(Duration::from_secs(4));
        }
        assert_eq!(client.shrink(), !waits);
    }
}

#[test]
fn shrink_loses_no_byte() {
    let (client, server) = pair();
    let (mut near, mut far) = streams(&client, &server);
    near.write_all(&[5; 100_000]).unwrap();
    far.read_exact(&mut [0; 50_000]).unwrap();
    client.shrink();
    server.shrink();
    near.finish().unwrap();
    let mut rest = Vec::new();
    far.read_to_end(&mut rest).unwrap();
    assert_eq!(rest, [5; 50_000]);
}
