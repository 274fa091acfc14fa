//! An echo server and its client, over TCP.
//!
//!     echo serve                        echoes each stream, and says where it listens
//!     echo call ADDRESS STREAMS BYTES   has so many streams echoed, 100 at once, and compares what comes back
//!     echo reset ADDRESS                has the server reset a stream
//!     echo count ADDRESS                resets a stream, and asks the server how many it saw reset
//!     echo lost ADDRESS                 has the server break the connection off in the middle of a stream
//!
//! A stream that begins with `reset`, `count` or `break` asks the server for that; any other is echoed.

use std::error::Error;
use std::io::{self, ErrorKind, Read, Write};
use std::net::{TcpListener, TcpStream};
use std::sync::atomic::{AtomicUsize, Ordering};
use std::sync::Arc;
use std::thread;
use std::time::Duration;
use ymx::{Connection, ReadHalf, Role, WriteHalf};

/// How many streams the peers have reset.
static RESETS: AtomicUsize = AtomicUsize::new(0);

type Outcome = Result<String, Box<dyn Error + Send + Sync>>;

fn main() {
    let words: Vec<String> = std::env::args().skip(1).collect();
    let words: Vec<&str> = words.iter().map(String::as_str).collect();
    let outcome = match words[..] {
        ["serve"] => serve(),
        ["call", address, streams, size] => call(address, streams, size),
        ["reset", address] => reset(address),
        ["count", address] => count(address),
        ["lost", address] => lost(address),
        _ => {
            Err("usage: echo serve | call ADDRESS STREAMS BYTES | reset ADDRESS | count ADDRESS | lost ADDRESS".into())
        }
    };
    match outcome {
        Ok(text) => println!("{text}"),
        Err(error) => {
            eprintln!("{error}");
            std::process::exit(1);
        }
    }
}

// ---- the server

fn serve() -> Outcome {
    let listener = TcpListener::bind("127.0.0.1:0")?;
    println!("listening at {}", listener.local_addr()?);
    loop {
        let connection = Arc::new(Connection::over(Role::Server, listener.accept()?.0)?);
        thread::spawn(move || {
            while let Ok((reader, writer)) = connection.accept() {
                let connection = Arc::clone(&connection);
                thread::spawn(move || answer(&connection, reader, writer));
            }
        });
    }
}

fn answer(connection: &Connection, mut reader: ReadHalf, mut writer: WriteHalf) -> io::Result<()> {
    let mut word = Vec::new();
    reader.by_ref().take(5).read_to_end(&mut word)?;
    match &word[..] {
        b"reset" => {
            reader.reset();
            return Ok(());
        }
        b"break" => {
            writer.write_all(&[0; 1000])?;
            connection.close();
            return Ok(());
        }
        b"count" => writer.write_all(RESETS.load(Ordering::SeqCst).to_string().as_bytes())?,
        _ => {
            writer.write_all(&word)?;
            if let Err(error) = io::copy(&mut reader, &mut writer) {
                if error.kind() == ErrorKind::ConnectionReset {
                    RESETS.fetch_add(1, Ordering::SeqCst);
                }
                return Err(error); // and the writer, which is dropped, resets the stream
            }
        }
    }
    writer.finish()
}

// ---- the client

fn dial(address: &str) -> io::Result<Connection> {
    Connection::over(Role::Client, TcpStream::connect(address)?)
}

fn ask(connection: &Connection, word: &[u8]) -> io::Result<(ReadHalf, WriteHalf)> {
    let (reader, mut writer) = connection.open()?;
    writer.write_all(word)?;
    Ok((reader, writer))
}

/// Sends bytes on a stream of their own while they come back. Its own end comes last, as an old peer of HashiCorp's reads
/// no more once it has closed.
fn echoed(connection: &Connection, seed: usize, size: usize) -> Outcome {
    let (mut reader, mut writer) = connection.open()?;
    let mut state = seed as u32 * 2 + 1;
    let mut sent: Vec<u8> = Vec::with_capacity(size);
    for _ in 0..size {
        state ^= state << 13;
        state ^= state >> 17;
        state ^= state << 5;
        sent.push(state as u8);
    }
    sent.iter_mut().take(1).for_each(|byte| *byte = 0); // no word
    let mut back = vec![0; size];
    thread::scope(|threads| {
        let sending = threads.spawn(|| writer.write_all(&sent));
        reader.read_exact(&mut back)?;
        sending.join().unwrap()
    })?;
    writer.finish()?;
    if reader.read(&mut [0])? != 0 || back != sent {
        return Err("other bytes came back".into());
    }
    Ok(String::new())
}

fn call(address: &str, streams: &str, size: &str) -> Outcome {
    let (connection, count, length) = (dial(address)?, streams.parse::<usize>()?, size.parse::<usize>()?);
    let next = AtomicUsize::new(0);
    thread::scope(|threads| {
        let seats: Vec<_> = (0..count.min(100))
            .map(|_| {
                threads.spawn(|| -> Outcome {
                    loop {
                        let number = next.fetch_add(1, Ordering::SeqCst);
                        if number >= count {
                            return Ok(String::new());
                        }
                        echoed(&connection, number, length)?;
                    }
                })
            })
            .collect();
        seats.into_iter().try_for_each(|seat| seat.join().unwrap().map(drop))
    })?;
    connection.ping()?;
    Ok(format!(
        "{streams} streams of {size} bytes echoed and compared, a ping answered"
    ))
}

fn reset(address: &str) -> Outcome {
    let connection = dial(address)?;
    let (mut reader, _writer) = ask(&connection, b"reset")?;
    match reader.read(&mut [0; 9]) {
        Err(error) if error.kind() == ErrorKind::ConnectionReset => echoed(&connection, 1, 100_000)?,
        other => return Err(format!("a reset reads as {other:?}").into()),
    };
    Ok("the stream was reset, and another one goes on".into())
}

fn count(address: &str) -> Outcome {
    let connection = dial(address)?;
    let (mut reader, writer) = ask(&connection, b"some bytes")?;
    reader.read_exact(&mut [0; 10])?;
    writer.reset();
    for _ in 0..100 {
        let (mut reader, writer) = ask(&connection, b"count")?;
        let mut text = String::new();
        reader.read_to_string(&mut text)?;
        writer.finish()?;
        if text.trim() != "0" {
            return Ok("the server saw the reset".into());
        }
        thread::sleep(Duration::from_millis(10));
    }
    Err("the server saw no reset".into())
}

fn lost(address: &str) -> Outcome {
    let connection = dial(address)?;
    let (mut reader, _writer) = ask(&connection, b"break")?;
    let mut came = Vec::new();
    match reader.read_to_end(&mut came) {
        Ok(_) => Err("a lost connection reads as an end".into()),
        Err(error) => Ok(format!("{} bytes came, and then: {error}", came.len())),
    }
}
