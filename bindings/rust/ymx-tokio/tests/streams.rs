use std::future::poll_fn;
use std::io::{self, ErrorKind};
use std::pin::Pin;
use std::task::{Context, Poll};
use std::time::{Duration, Instant};
use tokio::io::{AsyncRead, AsyncReadExt, AsyncWrite, AsyncWriteExt, ReadBuf};
use tokio::net::{TcpListener, TcpStream};
use ymx_tokio::{Connection, Ended, Refused, Role, Stream, LEAST_WINDOW};

static ZEROS: [u8; 1_000_000] = [0; 1_000_000];

async fn sockets() -> (TcpStream, TcpStream) {
    let listener = TcpListener::bind("127.0.0.1:0").await.unwrap();
    let near = TcpStream::connect(listener.local_addr().unwrap()).await.unwrap();
    near.set_nodelay(true).unwrap();
    let far = listener.accept().await.unwrap().0;
    far.set_nodelay(true).unwrap();
    (near, far)
}

async fn pair() -> (Connection, Connection) {
    let (near, far) = sockets().await;
    (
        Connection::begin(Role::Client, LEAST_WINDOW, near).unwrap(),
        Connection::begin(Role::Server, LEAST_WINDOW, far).unwrap(),
    )
}

async fn streams(client: &Connection, server: &Connection) -> (Stream, Stream) {
    (client.open().await.unwrap(), server.accept().await.unwrap())
}

fn text(seed: usize, size: usize) -> Vec<u8> {
    (0..size).map(|at| (at * 31 + at / 251 * 7 + seed) as u8).collect()
}

async fn soon(holds: impl Fn() -> bool) {
    let began = Instant::now();
    while !holds() {
        assert!(began.elapsed() < Duration::from_secs(60), "it doesn't come to hold");
        tokio::time::sleep(Duration::from_millis(5)).await;
    }
}

#[tokio::test(flavor = "multi_thread")]
async fn many_streams_carry_their_bytes() {
    let (client, server) = pair().await;
    let serving = server.clone();
    tokio::spawn(async move {
        while let Ok(stream) = serving.accept().await {
            tokio::spawn(async move {
                let (mut reader, mut writer) = tokio::io::split(stream);
                tokio::io::copy(&mut reader, &mut writer).await.unwrap();
                writer.shutdown().await.unwrap();
            });
        }
    });
    let mut tasks = Vec::new();
    for number in 0..300 {
        let stream = client.open().await.unwrap();
        tasks.push(tokio::spawn(async move {
            let sent = text(number, number * 3919);
            let (mut reader, mut writer) = tokio::io::split(stream);
            let mut back = Vec::new();
            let write = async {
                writer.write_all(&sent).await.unwrap();
                writer.shutdown().await.unwrap();
            };
            let (_, came) = tokio::join!(write, reader.read_to_end(&mut back));
            came.unwrap();
            assert!(back == sent, "stream {number}");
        }));
    }
    for task in tasks {
        task.await.unwrap();
    }
    soon(|| client.stream_count() == 0 && server.stream_count() == 0).await;
}

#[tokio::test]
async fn what_was_cut_off_is_no_end() {
    let (client, server) = pair().await;
    let (mut near, far) = streams(&client, &server).await;
    near.write_all(b"x").await.unwrap();
    drop(far);
    assert_eq!(
        near.read(&mut [0]).await.unwrap_err().kind(),
        ErrorKind::ConnectionReset
    );
    assert!(near.write_all(b"x").await.is_err());

    let (mut near, mut far) = streams(&client, &server).await;
    far.write_all(b"a beginning").await.unwrap();
    near.read_exact(&mut [0; 11]).await.unwrap();
    drop(server);
    let error = near.read(&mut [0]).await.unwrap_err();
    assert_eq!(error.kind(), ErrorKind::ConnectionAborted);
    assert_eq!(client.ended(), Some(Ended::Peer));
    assert_eq!(
        far.read(&mut [0]).await.unwrap_err().kind(),
        ErrorKind::ConnectionAborted
    );
    assert!(client.open().await.is_err() && client.accept().await.is_err());
}

#[tokio::test]
async fn what_was_written_is_sent_after_the_last_clone() {
    let (client, server) = pair().await;
    let (mut near, mut far) = streams(&client, &server).await;
    let sent = text(3, LEAST_WINDOW as usize);
    near.write_all(&sent).await.unwrap();
    near.shutdown().await.unwrap();
    drop(client);
    let mut came = Vec::new();
    far.read_to_end(&mut came).await.unwrap();
    assert!(came == sent);
    assert_eq!(server.accept().await.unwrap_err().kind(), ErrorKind::ConnectionAborted);
}

#[tokio::test]
async fn who_writes_to_nobody_is_reset() {
    let (client, server) = pair().await;
    for _ in 0..1100 {
        let (mut near, mut far) = streams(&client, &server).await;
        let writing = tokio::spawn(async move { far.write_all(&ZEROS).await });
        near.read_exact(&mut [0; 10]).await.unwrap();
        near.shutdown().await.unwrap();
        drop(near);
        let error = writing.await.unwrap().unwrap_err();
        assert_eq!(error.kind(), ErrorKind::ConnectionReset);
    }
    soon(|| client.stream_count() == 0).await;
}

#[tokio::test]
async fn opens_wait_where_256_are_not_acknowledged() {
    let (near, mut far) = sockets().await;
    let client = Connection::begin(Role::Client, LEAST_WINDOW, near).unwrap();
    let mut kept = Vec::new();
    for _ in 0..256 {
        kept.push(client.open().await.unwrap());
    }
    let late = tokio::time::timeout(Duration::from_millis(50), client.open()).await;
    assert!(late.is_err());
    // a Window Update with ACK for stream 1, by the specification
    far.write_all(&[0, 1, 0, 2, 0, 0, 0, 1, 0, 0, 0, 0]).await.unwrap();
    client.open().await.unwrap();
}

#[tokio::test(flavor = "multi_thread")]
async fn hyper_at_both_ends() {
    use hyper::{body, client::conn::handshake, server::conn::Http, service::service_fn, Body, Request, Response};
    let (client, server) = pair().await;
    tokio::spawn(async move {
        while let Ok(stream) = server.accept().await {
            let echo = service_fn(|request: Request<Body>| async {
                Ok::<_, hyper::Error>(Response::new(request.into_body()))
            });
            tokio::spawn(Http::new().serve_connection(stream, echo));
        }
    });
    for number in 0..20 {
        let (mut sender, connection) = handshake(client.open().await.unwrap()).await.unwrap();
        tokio::spawn(connection);
        for round in 0..3 {
            let sent = text(number + round, 200_000);
            let request = Request::post("http://x/").body(Body::from(sent.clone())).unwrap();
            // hyper asks for this before each request but the first
            poll_fn(|context| sender.poll_ready(context)).await.unwrap();
            let response = sender.send_request(request).await.unwrap();
            assert!(body::to_bytes(response.into_body()).await.unwrap() == sent);
        }
    }
}

/// Not a test of its own: the client of the next one, in a process that ends as soon as this returns.
#[tokio::test(flavor = "multi_thread")]
async fn a_client_that_ends_at_once() {
    let word = |name| std::env::var(name).unwrap_or_default();
    let port: u16 = match word("YMX_PORT").parse() {
        Ok(port) => port,
        Err(_) => return,
    };
    let socket = TcpStream::connect(("127.0.0.1", port)).await.unwrap();
    socket.set_nodelay(true).unwrap();
    let connection = Connection::begin(Role::Client, LEAST_WINDOW, socket).unwrap();
    let mut stream = connection.open().await.unwrap();
    let size: usize = word("YMX_SIZE").parse().unwrap();
    stream.write_all(&ZEROS[..size]).await.unwrap();
    stream.shutdown().await.unwrap();
    if word("YMX_CLOSES") == "yes" {
        drop(stream);
        connection.close().await.unwrap();
    }
}

/// After `shutdown` alone the runtime waits at its end, so that the system drops nothing.
#[tokio::test(flavor = "multi_thread")]
async fn what_is_ok_arrives_though_the_program_ends() {
    let listener = TcpListener::bind("127.0.0.1:0").await.unwrap();
    let port = listener.local_addr().unwrap().port();
    let sizes = [5, 100_000, 250_000].into_iter();
    for (size, closes) in sizes.flat_map(|size| [(size, "no"), (size, "yes")]) {
        for number in 0..50 {
            let mut client = std::process::Command::new(std::env::current_exe().unwrap())
                .args(["--exact", "a_client_that_ends_at_once"])
                .envs([
                    ("YMX_PORT", &*port.to_string()),
                    ("YMX_SIZE", &*size.to_string()),
                    ("YMX_CLOSES", closes),
                ])
                .stdout(std::process::Stdio::null())
                .spawn()
                .unwrap();
            let (socket, _) = listener.accept().await.unwrap();
            let connection = Connection::begin(Role::Server, LEAST_WINDOW, socket).unwrap();
            let mut came = Vec::new();
            let mut stream = connection.accept().await.unwrap();
            let read = stream.read_to_end(&mut came).await;
            assert!(client.wait().unwrap().success());
            assert!(
                read.is_ok() && came.len() == size,
                "{number}: {read:?}, {} of {size}, closes: {closes}",
                came.len()
            );
        }
    }
}

/// Not a test of its own: a program that exits from within as soon as `flush` or `shutdown` is Ok. Its one thread runs the
/// connection's task only where it waits.
#[tokio::test]
async fn a_client_that_exits_at_once() {
    let word = |name| std::env::var(name).unwrap_or_default();
    let port: u16 = match word("YMX_EXITS_FROM").parse() {
        Ok(port) => port,
        Err(_) => return,
    };
    let socket = TcpStream::connect(("127.0.0.1", port)).await.unwrap();
    let connection = Connection::begin(Role::Client, LEAST_WINDOW, socket).unwrap();
    let mut stream = connection.open().await.unwrap();
    stream.write_all(b"hello").await.unwrap();
    match &*word("YMX_AFTER") {
        "flush" => stream.flush().await.unwrap(),
        _ => stream.shutdown().await.unwrap(),
    }
    std::process::exit(0);
}

#[test]
fn what_is_ok_arrives_though_the_process_exits() {
    use std::io::Read;
    let listener = std::net::TcpListener::bind("127.0.0.1:0").unwrap();
    let port = listener.local_addr().unwrap().port();
    // by the specification: a Window Update with SYN for stream 1, Data of 5 bytes, and a Window Update with FIN
    let flushed = b"\0\x01\0\x01\0\0\0\x01\0\0\0\0\0\0\0\0\0\0\0\x01\0\0\0\x05hello".to_vec();
    let shut = [&flushed[..], b"\0\x01\0\x04\0\0\0\x01\0\0\0\0"].concat();
    for (after, expected) in [("flush", flushed), ("shutdown", shut)] {
        let mut client = std::process::Command::new(std::env::current_exe().unwrap())
            .args(["--exact", "a_client_that_exits_at_once"])
            .envs([("YMX_EXITS_FROM", &*port.to_string()), ("YMX_AFTER", after)])
            .stdout(std::process::Stdio::null())
            .spawn()
            .unwrap();
        let mut came = Vec::new();
        let read = listener.accept().unwrap().0.read_to_end(&mut came);
        assert!(client.wait().unwrap().success());
        assert!(read.is_ok() && came == expected, "after {after}: {came:?}");
    }
}

/// How long the end of a runtime takes whose peer reads nothing, with 250,000 bytes written.
fn end_of_runtime(shuts: bool) -> Duration {
    let listener = std::net::TcpListener::bind("127.0.0.1:0").unwrap();
    let runtime = tokio::runtime::Runtime::new().unwrap();
    let _far = runtime.block_on(async {
        let near = TcpStream::connect(listener.local_addr().unwrap()).await.unwrap();
        let client = Connection::begin(Role::Client, LEAST_WINDOW, near).unwrap();
        client.set_linger(Duration::from_secs(2));
        let mut stream = client.open().await.unwrap();
        stream.write_all(&ZEROS[..250_000]).await.unwrap();
        match shuts {
            true => stream.shutdown().await.unwrap(),
            false => tokio::time::sleep(Duration::from_millis(50)).await,
        }
        listener.accept().unwrap()
    });
    let began = Instant::now();
    drop(runtime);
    began.elapsed()
}

#[cfg(target_os = "linux")]
#[test]
fn a_runtime_waits_at_its_end_for_what_was_promised_and_no_longer_than_it_lingers() {
    assert!(end_of_runtime(false) < Duration::from_millis(1500));
    let took = end_of_runtime(true);
    assert!(
        Duration::from_millis(1500) < took && took < Duration::from_secs(9),
        "{took:?}"
    );
}

#[tokio::test]
async fn flush_and_shutdown_wait_until_all_has_gone() {
    let (near, mut far) = tokio::io::duplex(5);
    let client = Connection::begin(Role::Client, LEAST_WINDOW, near).unwrap();
    let mut stream = client.open().await.unwrap();
    stream.write_all(&ZEROS[..1000]).await.unwrap();
    let mut came = 0;
    // by the specification: a header of 12 bytes and the 1,000, and a header for the end
    for least in [1012, 1024] {
        let mut buffer = [0; 10];
        let gone = async {
            match least {
                1012 => stream.flush().await,
                _ => stream.shutdown().await,
            }
        };
        tokio::pin!(gone);
        loop {
            tokio::select! {
                biased;
                result = gone.as_mut() => break result.unwrap(),
                count = far.read(&mut buffer) => came += count.unwrap(),
            }
        }
        assert!(came + 5 >= least, "it has returned, and {came} bytes have come");
    }
}

#[tokio::test]
async fn what_is_written_goes_by_itself_as_there_is_room() {
    let (near, mut far) = tokio::io::duplex(5);
    let client = Connection::begin(Role::Client, LEAST_WINDOW, near).unwrap();
    let mut stream = client.open().await.unwrap();
    stream.write_all(&ZEROS[..1000]).await.unwrap();
    // by the specification: a Window Update with SYN, and Data
    let mut came = [0; 12 + 1012];
    let read = tokio::time::timeout(Duration::from_secs(20), far.read_exact(&mut came)).await;
    read.unwrap().unwrap();
}

/// The peer resets a stream whose last byte, or end, is under way: the session has given it, and there is no room for it.
#[tokio::test]
async fn a_reset_that_comes_after_the_last_byte_changes_nothing() {
    for shuts in [false, true] {
        let (near, mut far) = tokio::io::duplex(20);
        let client = Connection::begin(Role::Client, LEAST_WINDOW, near).unwrap();
        let mut stream = client.open().await.unwrap();
        stream.write_all(&ZEROS[..1000]).await.unwrap();
        let going = |context: &mut Context<'_>, stream: &mut Stream| match shuts {
            false => Pin::new(stream).poll_flush(context),
            true => Pin::new(stream).poll_shutdown(context),
        };
        // before the task runs, so that it takes all into one block
        assert!(poll_fn(|context| Poll::Ready(going(context, &mut stream)))
            .await
            .is_pending());
        far.read_exact(&mut [0]).await.unwrap();
        // by the specification: a Window Update with RST for stream 1
        far.write_all(&[0, 1, 0, 8, 0, 0, 0, 1, 0, 0, 0, 0]).await.unwrap();
        let reset = stream.read(&mut [0]).await.unwrap_err();
        assert_eq!(reset.kind(), ErrorKind::ConnectionReset);
        assert!(poll_fn(|context| Poll::Ready(going(context, &mut stream)))
            .await
            .is_pending());
        // and a Window Update with SYN, Data, and for the end another Window Update
        let mut rest = vec![0; 12 + 1012 + if shuts { 12 } else { 0 } - 1];
        let (gone, read) = tokio::join!(
            poll_fn(|context| going(context, &mut stream)),
            far.read_exact(&mut rest)
        );
        read.unwrap();
        gone.unwrap();
    }
}

/// Whether the stream was just offered, or the task waits for nothing but to be woken. The time is tokio's own.
#[tokio::test(start_paused = true)]
async fn a_stream_is_acknowledged_soon_though_nothing_is_done_with_it() {
    for late in [false, true] {
        let (near, mut far) = tokio::io::duplex(100);
        let server = Connection::begin(Role::Server, LEAST_WINDOW, near).unwrap();
        // Window Updates with SYN for stream 1, and with ACK, by the specification
        far.write_all(&[0, 1, 0, 1, 0, 0, 0, 1, 0, 0, 0, 0]).await.unwrap();
        if late {
            tokio::time::sleep(Duration::from_secs(2)).await;
        }
        let _stream = server.accept().await.unwrap();
        let mut came = [0; 12];
        let read = tokio::time::timeout(Duration::from_millis(100), far.read_exact(&mut came)).await;
        read.unwrap().unwrap();
        assert_eq!(came, [0, 1, 0, 2, 0, 0, 0, 1, 0, 0, 0, 0]);
    }
}

/// What a stream's `poll_shutdown` says where nobody else runs meanwhile.
async fn shut_at_once(stream: &mut Stream) -> Poll<io::Result<()>> {
    poll_fn(|context| Poll::Ready(Pin::new(&mut *stream).poll_shutdown(context))).await
}

#[tokio::test]
async fn flush_and_shutdown_need_not_wait_for_the_task() {
    let (client, server) = pair().await;
    for _ in 0..2000 {
        let (mut near, mut far) = streams(&client, &server).await;
        near.write_all(b"first").await.unwrap();
        let flushed = poll_fn(|context| Poll::Ready(Pin::new(&mut near).poll_flush(context))).await;
        near.write_all(b", last").await.unwrap();
        let shut = shut_at_once(&mut near).await;
        assert!(matches!((flushed, shut), (Poll::Ready(Ok(())), Poll::Ready(Ok(())))));
        let mut came = Vec::new();
        far.read_to_end(&mut came).await.unwrap();
        assert_eq!(came, b"first, last");
        assert!(matches!(shut_at_once(&mut far).await, Poll::Ready(Ok(()))));
    }
}

/// Many threads flush over a pipe that is mostly full, each beside the task and the others.
#[tokio::test(flavor = "multi_thread", worker_threads = 4)]
async fn who_flushes_beside_others_mixes_no_bytes() {
    let (near, far) = tokio::io::duplex(700);
    let client = Connection::begin(Role::Client, LEAST_WINDOW, near).unwrap();
    let server = Connection::begin(Role::Server, LEAST_WINDOW, far).unwrap();
    let mut tasks = Vec::new();
    for number in 0..20 {
        let mut near = client.open().await.unwrap();
        tasks.push(tokio::spawn(async move {
            for part in text(number, 30_000).chunks(1 + number * 97) {
                near.write_all(part).await.unwrap();
                near.flush().await.unwrap();
            }
            near.shutdown().await.unwrap();
        }));
    }
    for _ in 0..20 {
        let mut far = server.accept().await.unwrap();
        tasks.push(tokio::spawn(async move {
            let mut came = Vec::new();
            far.read_to_end(&mut came).await.unwrap();
            assert!(came == text(far.id() as usize / 2, 30_000), "stream {}", far.id());
        }));
    }
    for task in tasks {
        tokio::time::timeout(Duration::from_secs(60), task)
            .await
            .unwrap()
            .unwrap();
    }
}

/// Its first write fails, and others wait for ever. It reads what is there, half a second later.
struct Broken {
    has_failed: bool,
    there: &'static [u8],
    ready: Pin<Box<tokio::time::Sleep>>,
}

impl Broken {
    fn with(there: &'static [u8]) -> Broken {
        Broken {
            has_failed: false,
            there,
            ready: Box::pin(tokio::time::sleep(Duration::from_millis(500))),
        }
    }
}

impl AsyncRead for Broken {
    fn poll_read(
        mut self: Pin<&mut Self>,
        context: &mut Context<'_>,
        buffer: &mut ReadBuf<'_>,
    ) -> Poll<io::Result<()>> {
        if self.there.is_empty() || std::future::Future::poll(self.ready.as_mut(), context).is_pending() {
            return Poll::Pending;
        }
        buffer.put_slice(std::mem::take(&mut self.there));
        Poll::Ready(Ok(()))
    }
}

impl AsyncWrite for Broken {
    fn poll_write(mut self: Pin<&mut Self>, _: &mut Context<'_>, _: &[u8]) -> Poll<io::Result<usize>> {
        if std::mem::replace(&mut self.has_failed, true) {
            return Poll::Pending;
        }
        Poll::Ready(Err(ErrorKind::BrokenPipe.into()))
    }

    fn poll_flush(self: Pin<&mut Self>, _: &mut Context<'_>) -> Poll<io::Result<()>> {
        Poll::Ready(Ok(()))
    }

    fn poll_shutdown(self: Pin<&mut Self>, _: &mut Context<'_>) -> Poll<io::Result<()>> {
        Poll::Ready(Ok(()))
    }
}

#[tokio::test]
async fn a_write_that_failed_for_a_flush_ends_the_connection() {
    let client = Connection::begin(Role::Client, LEAST_WINDOW, Broken::with(b"")).unwrap();
    tokio::task::yield_now().await;
    let mut stream = client.open().await.unwrap();
    let flushed = tokio::time::timeout(Duration::from_secs(20), stream.flush()).await;
    assert_eq!(flushed.unwrap().unwrap_err().kind(), ErrorKind::ConnectionAborted);
    assert_eq!(client.ended(), Some(Ended::Failed(ErrorKind::BrokenPipe)));
}

#[tokio::test]
async fn what_has_come_is_read_though_no_write_succeeds() {
    // Data with SYN and FIN of stream 1 and 5 bytes, by the specification
    let there = b"\0\0\0\x05\0\0\0\x01\0\0\0\x05hello";
    let server = Connection::begin(Role::Server, LEAST_WINDOW, Broken::with(there)).unwrap();
    let pinged = tokio::time::timeout(Duration::from_millis(50), server.ping()).await;
    assert!(pinged.is_err()); // and what was written for it has failed
    let mut stream = server.accept().await.unwrap();
    let mut came = Vec::new();
    stream.read_to_end(&mut came).await.unwrap();
    assert_eq!(came, b"hello");
}

#[tokio::test]
async fn a_shutdown_that_has_failed_stays_failed() {
    let (client, server) = pair().await;
    let (mut near, far) = streams(&client, &server).await;
    drop((server, far));
    soon(|| client.ended().is_some()).await;
    for _ in 0..3 {
        assert!(near.shutdown().await.is_err());
    }
}

#[tokio::test]
async fn each_of_many_that_accept_gets_a_stream_though_some_give_up() {
    let (client, server) = pair().await;
    let waiting: Vec<_> = (0..20)
        .map(|_| {
            let server = server.clone();
            tokio::spawn(async move { server.accept().await })
        })
        .collect();
    tokio::task::yield_now().await;
    waiting.iter().step_by(2).for_each(|task| task.abort());
    let mut kept = Vec::new();
    for _ in 0..10 {
        kept.push(client.open().await.unwrap());
    }
    for task in waiting.into_iter().skip(1).step_by(2) {
        task.await.unwrap().unwrap();
    }
}

#[tokio::test]
async fn pings_are_answered_and_a_silent_peer_is_noticed() {
    let (client, server) = pair().await;
    for _ in 0..100 {
        let _ = tokio::time::timeout(Duration::ZERO, client.ping()).await; // most are given up
        client.ping().await.unwrap();
    }
    client.keep_alive(Duration::from_millis(700)); // a bound that a busy machine keeps
    tokio::time::sleep(Duration::from_millis(1500)).await;
    assert_eq!((client.ended(), server.ended()), (None, None));

    let (near, _far) = sockets().await; // which says nothing
    let alone = Connection::begin(Role::Client, LEAST_WINDOW, near).unwrap();
    alone.keep_alive(Duration::from_millis(20));
    let ended = alone.accept().await.unwrap_err();
    assert_eq!(ended.kind(), ErrorKind::ConnectionAborted);
    assert_eq!(alone.ended(), Some(Ended::Silent));
}

#[tokio::test]
async fn after_go_away_no_stream_is_opened() {
    let (client, server) = pair().await;
    let (mut near, mut far) = streams(&client, &server).await;
    server.go_away().unwrap();
    server.ping().await.unwrap();
    let refused = client.open().await.unwrap_err();
    let name = refused
        .get_ref()
        .and_then(|inner| inner.downcast_ref::<Refused>())
        .map(|inner| inner.name());
    assert_eq!(name, Some("PEER_AWAY"));
    near.write_all(b"goes on").await.unwrap();
    far.read_exact(&mut [0; 7]).await.unwrap();
    assert!(!client.shrink() || !client.shrink());
}

#[tokio::test]
async fn close_waits_for_the_peer_and_no_longer_than_it_lingers() {
    let (client, server) = pair().await;
    let (mut near, mut far) = streams(&client, &server).await;
    near.write_all(&ZEROS[..200_000]).await.unwrap();
    near.shutdown().await.unwrap();
    client.close().await.unwrap();
    let mut came = Vec::new();
    far.read_to_end(&mut came).await.unwrap();
    assert_eq!(came.len(), 200_000);
    assert_eq!(client.accept().await.unwrap_err().kind(), ErrorKind::ConnectionAborted);
    client.close().await.unwrap();

    let (near, _far) = sockets().await; // which answers no ping
    let alone = Connection::begin(Role::Client, LEAST_WINDOW, near).unwrap();
    alone.set_linger(Duration::from_millis(100));
    let began = Instant::now();
    assert_eq!(alone.close().await.unwrap_err().kind(), ErrorKind::TimedOut);
    assert!(began.elapsed() >= Duration::from_millis(100));
}

#[cfg(feature = "futures")]
#[tokio::test]
async fn the_traits_of_futures() {
    use futures_util::io::{AsyncReadExt as _, AsyncWriteExt as _};
    let (client, server) = pair().await;
    let (near, far) = streams(&client, &server).await;
    let (mut reader, mut writer) = futures_util::AsyncReadExt::split(near);
    let (mut from, mut to) = futures_util::AsyncReadExt::split(far);
    let sent = text(5, 700_000);
    let echo = async {
        futures_util::io::copy(&mut from, &mut to).await.unwrap();
        to.close().await.unwrap();
    };
    let send = async {
        writer.write_all(&sent).await.unwrap();
        writer.close().await.unwrap();
    };
    let mut came = Vec::new();
    let (_, _, read) = tokio::join!(echo, send, reader.read_to_end(&mut came));
    read.unwrap();
    assert!(came == sent);
}
