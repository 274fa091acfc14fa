//! Alone in its process, as it looks at that one's memory.

use tokio::net::{TcpListener, TcpStream};
use ymx_tokio::{Connection, Role, LEAST_WINDOW};

fn resident() -> u64 {
    let words = std::fs::read_to_string("/proc/self/statm").unwrap();
    words.split(' ').nth(1).unwrap().parse::<u64>().unwrap() * 4096
}

#[tokio::test]
async fn a_future_that_is_dropped_leaves_nothing() {
    let listener = TcpListener::bind("127.0.0.1:0").await.unwrap();
    let near = TcpStream::connect(listener.local_addr().unwrap()).await.unwrap();
    let client = Connection::begin(Role::Client, LEAST_WINDOW, near).unwrap();
    let mut before = 0;
    for turn in 0..400_000 {
        tokio::select! {
            biased;
            _ = client.accept() => panic!("nobody opens a stream"),
            () = tokio::task::yield_now() => {}
        }
        if turn == 1000 {
            before = resident();
        }
    }
    let grown = resident().saturating_sub(before);
    assert!(grown < 4_000_000, "{grown} bytes more");
}
