//! Times ymx-tokio: both sides in this process, over TCP on the loopback. Each line has a name, an amount a second, and
//! milliseconds of processor time. bindings.sh takes the medians.

use std::time::Instant;
use tokio::io::{self, AsyncReadExt, AsyncWriteExt};
use tokio::net::{TcpListener, TcpStream};
use ymx::Role;
use ymx_tokio::Connection;

const WINDOW: u32 = 262_144;

async fn pair() -> io::Result<(Connection, Connection)> {
    let listener = TcpListener::bind("127.0.0.1:0").await?;
    let near = TcpStream::connect(listener.local_addr()?).await?;
    let far = listener.accept().await?.0;
    near.set_nodelay(true)?;
    far.set_nodelay(true)?;
    let client = Connection::begin(Role::Client, WINDOW, near)?;
    Ok((client, Connection::begin(Role::Server, WINDOW, far)?))
}

/// Echoes each stream, one at a time in a task.
async fn serve(server: Connection) {
    while let Ok(stream) = server.accept().await {
        tokio::spawn(async move {
            let (mut reader, mut writer) = io::split(stream);
            io::copy(&mut reader, &mut writer).await?;
            writer.shutdown().await
        });
    }
}

/// Words of 64 bytes there and back, one after another.
async fn words(client: &Connection, count: usize) -> io::Result<()> {
    let mut stream = client.open().await?;
    let mut word = [0; 64];
    for _ in 0..count {
        stream.write_all(&word).await?;
        stream.read_exact(&mut word).await?;
    }
    stream.shutdown().await
}

/// So many megabytes there and back over one stream.
async fn bulk(client: &Connection, count: usize) -> io::Result<()> {
    let (mut reader, mut writer) = io::split(client.open().await?);
    let sending = tokio::spawn(async move {
        let block = vec![0; 1_000_000];
        for _ in 0..count {
            writer.write_all(&block).await?;
        }
        writer.shutdown().await
    });
    let mut block = vec![0; 65_536];
    while reader.read(&mut block).await? > 0 {}
    sending.await?
}

/// Streams that are opened, echoed and closed one after another.
async fn streams(client: &Connection, count: usize) -> io::Result<()> {
    for _ in 0..count {
        let mut stream = client.open().await?;
        stream.write_all(b"hello").await?;
        stream.shutdown().await?;
        let mut answer = Vec::new();
        stream.read_to_end(&mut answer).await?;
        assert!(answer == b"hello");
    }
    Ok(())
}

/// The processor time of this process, in milliseconds.
fn spent() -> u64 {
    let stat = std::fs::read_to_string("/proc/self/stat").unwrap();
    let words = stat.rsplit(')').next().unwrap().split_whitespace();
    words.skip(11).take(2).map(|ticks| ticks.parse::<u64>().unwrap() * 10).sum()
}

fn report(name: &str, count: usize, began: Instant, before: u64) {
    let speed = count as f64 / began.elapsed().as_secs_f64();
    println!("{name} {speed:.0} {}", spent() - before);
}

/// In a task, as servers do: who runs in `main` itself is woken by another thread each time.
async fn measure(name: &str) -> io::Result<()> {
    let (client, server) = pair().await?;
    tokio::spawn(serve(server));
    let (before, began) = (spent(), Instant::now());
    let count = match name {
        "bulk_MB" => 1000,
        _ => 20_000,
    };
    match name {
        "words" => words(&client, count).await?,
        "bulk_MB" => bulk(&client, count).await?,
        _ => streams(&client, count).await?,
    }
    report(name, count, began, before);
    Ok(())
}

#[tokio::main]
async fn main() -> io::Result<()> {
    for name in ["words", "bulk_MB", "streams"] {
        tokio::spawn(measure(name)).await??;
    }
    Ok(())
}
