//! rustls runs over streams of one connection: 200 of them at once, whose bytes come back.
use rustls::client::{ServerCertVerified, ServerCertVerifier};
use rustls::{
    Certificate, ClientConfig, ClientConnection, Error, PrivateKey, ServerConfig, ServerConnection, ServerName,
    StreamOwned,
};
use std::io::{Read, Write};
use std::net::{TcpListener, TcpStream};
use std::sync::Arc;
use std::thread;
use std::time::SystemTime;
use ymx::{Connection, Role, Stream};

/// It trusts one certificate alone.
struct One(Certificate);

impl ServerCertVerifier for One {
    fn verify_server_cert(
        &self,
        shown: &Certificate,
        _: &[Certificate],
        _: &ServerName,
        _: &mut dyn Iterator<Item = &[u8]>,
        _: &[u8],
        _: SystemTime,
    ) -> Result<ServerCertVerified, Error> {
        let other = Error::General("another certificate".into());
        (*shown == self.0).then(ServerCertVerified::assertion).ok_or(other)
    }
}

fn echo(server: &Connection, config: Arc<ServerConfig>) {
    while let Ok(halves) = server.accept() {
        let config = config.clone();
        thread::spawn(move || {
            let mut tls = StreamOwned::new(ServerConnection::new(config).unwrap(), Stream::from(halves));
            let mut text = Vec::new();
            tls.read_to_end(&mut text).unwrap();
            tls.write_all(&text).unwrap();
            tls.conn.send_close_notify();
            tls.flush().unwrap();
            tls.sock.finish().unwrap();
        });
    }
}

fn ask(client: &Connection, config: Arc<ClientConfig>, number: usize) {
    let text: Vec<u8> = (0..number * 3919)
        .map(|at| (at * 31 + at / 251 * 7 + number) as u8)
        .collect();
    let inner = ClientConnection::new(config, "localhost".try_into().unwrap()).unwrap();
    let mut tls = StreamOwned::new(inner, Stream::from(client.open().unwrap()));
    tls.write_all(&text).unwrap();
    tls.conn.send_close_notify();
    tls.flush().unwrap();
    tls.sock.finish().unwrap();
    let mut came = Vec::new();
    tls.read_to_end(&mut came).unwrap();
    assert!(came == text, "other bytes came at {number}");
}

fn main() {
    let shown = Certificate(std::fs::read("certificate").unwrap());
    let key = PrivateKey(std::fs::read("key").unwrap());
    let near = ClientConfig::builder().with_safe_defaults();
    let near = near
        .with_custom_certificate_verifier(Arc::new(One(shown.clone())))
        .with_no_client_auth();
    let far = ServerConfig::builder().with_safe_defaults().with_no_client_auth();
    let (near, far) = (
        Arc::new(near),
        Arc::new(far.with_single_cert(vec![shown], key).unwrap()),
    );
    let listener = TcpListener::bind("127.0.0.1:0").unwrap();
    let client = Connection::over(
        Role::Client,
        TcpStream::connect(listener.local_addr().unwrap()).unwrap(),
    )
    .unwrap();
    let server = Connection::over(Role::Server, listener.accept().unwrap().0).unwrap();
    thread::spawn(move || echo(&server, far));
    thread::scope(|scope| {
        for number in 1..=200 {
            let (client, near) = (&client, near.clone());
            scope.spawn(move || ask(client, near, number));
        }
    });
    println!("200 streams of TLS, whose bytes came back");
}
