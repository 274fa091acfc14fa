//! tokio-rustls runs over streams of one connection: 200 of them at once, whose bytes come back.
use std::sync::Arc;
use std::time::SystemTime;
use tokio::io::{AsyncReadExt, AsyncWriteExt};
use tokio::net::{TcpListener, TcpStream};
use tokio_rustls::rustls::client::{ServerCertVerified, ServerCertVerifier};
use tokio_rustls::rustls::{Certificate, ClientConfig, Error, PrivateKey, ServerConfig, ServerName};
use tokio_rustls::{TlsAcceptor, TlsConnector};
use ymx_tokio::{Connection, Role, Stream, LEAST_WINDOW};

/// It trusts one certificate alone.
struct One(Certificate);

impl ServerCertVerifier for One {
    fn verify_server_cert(
        &self,
        shown: &Certificate,
        _: &[Certificate],
        _: &ServerName,
        _: &mut dyn Iterator<Item = &[u8]>,
        _: &[u8],
        _: SystemTime,
    ) -> Result<ServerCertVerified, Error> {
        let other = Error::General("another certificate".into());
        (*shown == self.0).then(ServerCertVerified::assertion).ok_or(other)
    }
}

async fn echo(acceptor: TlsAcceptor, stream: Stream) {
    let mut tls = acceptor.accept(stream).await.unwrap();
    let mut text = Vec::new();
    tls.read_to_end(&mut text).await.unwrap();
    tls.write_all(&text).await.unwrap();
    tls.shutdown().await.unwrap();
}

async fn ask(connector: TlsConnector, stream: Stream, number: usize) {
    let text: Vec<u8> = (0..number * 3919)
        .map(|at| (at * 31 + at / 251 * 7 + number) as u8)
        .collect();
    let mut tls = connector.connect("localhost".try_into().unwrap(), stream).await.unwrap();
    tls.write_all(&text).await.unwrap();
    tls.shutdown().await.unwrap();
    let mut came = Vec::new();
    tls.read_to_end(&mut came).await.unwrap();
    assert!(came == text, "other bytes came at {number}");
}

#[tokio::main]
async fn main() {
    let shown = Certificate(std::fs::read("certificate").unwrap());
    let key = PrivateKey(std::fs::read("key").unwrap());
    let near = ClientConfig::builder().with_safe_defaults();
    let near = near
        .with_custom_certificate_verifier(Arc::new(One(shown.clone())))
        .with_no_client_auth();
    let far = ServerConfig::builder().with_safe_defaults().with_no_client_auth();
    let far = far.with_single_cert(vec![shown], key).unwrap();
    let (connector, acceptor) = (TlsConnector::from(Arc::new(near)), TlsAcceptor::from(Arc::new(far)));

    let listener = TcpListener::bind("127.0.0.1:0").await.unwrap();
    let socket = TcpStream::connect(listener.local_addr().unwrap()).await.unwrap();
    let client = Connection::begin(Role::Client, LEAST_WINDOW, socket).unwrap();
    let server = Connection::begin(Role::Server, LEAST_WINDOW, listener.accept().await.unwrap().0).unwrap();
    tokio::spawn(async move {
        while let Ok(stream) = server.accept().await {
            tokio::spawn(echo(acceptor.clone(), stream));
        }
    });
    let mut asking = Vec::new();
    for number in 1..=200 {
        let stream = client.open().await.unwrap();
        asking.push(tokio::spawn(ask(connector.clone(), stream, number)));
    }
    for task in asking {
        task.await.unwrap();
    }
    println!("200 streams of TLS, whose bytes came back");
}
