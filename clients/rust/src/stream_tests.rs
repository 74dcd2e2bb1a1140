//! What the table of cases doesn't have: streams over a connection, and the texts of late replies. Used by: `cargo test`, which
//! scripts/check-clients runs.

use std::io::{self, BufRead, BufReader, Read, Write};
use std::net::{TcpListener, TcpStream};
use std::sync::atomic::{AtomicUsize, Ordering};
use std::sync::Arc;
use std::thread;
use std::time::{Duration, Instant};

use crate::{Administrator, Client, Error, Options};

const MASK: u8 = 0x55;

/// A stream whose bytes are other ones than those of its connection.
struct Masked(TcpStream);

impl Read for Masked {
    fn read(&mut self, to: &mut [u8]) -> io::Result<usize> {
        let count = self.0.read(to)?;
        to[..count].iter_mut().for_each(|it| *it ^= MASK);
        Ok(count)
    }
}

impl Write for Masked {
    fn write(&mut self, bytes: &[u8]) -> io::Result<usize> {
        let masked: Vec<u8> = bytes.iter().map(|it| it ^ MASK).collect();
        self.0.write(&masked)
    }

    fn flush(&mut self) -> io::Result<()> {
        self.0.flush()
    }
}

/// Where a server listens that speaks over such a stream: it answers lines, and closes its first connection at `GET 3`.
fn serve() -> String {
    let listener = TcpListener::bind("127.0.0.1:0").unwrap();
    let at = listener.local_addr().unwrap().to_string();
    thread::spawn(move || {
        for (number, socket) in listener.incoming().enumerate() {
            let socket = socket.unwrap();
            thread::spawn(move || answer_all(socket, number == 0));
        }
    });
    at
}

fn answer_all(socket: TcpStream, is_first: bool) {
    let mut to = Masked(socket.try_clone().unwrap());
    for line in BufReader::new(Masked(socket)).lines().map_while(Result::ok) {
        let reply: &[u8] = match line.as_str() {
            "TENANT t" => b"OK 9\n",
            "ADMIN" => b"OK ADMIN\n",
            "GET 3" if is_first => return,
            "GET 3" => b"VAL 5\n",
            "QUIT" => b"BYE\n",
            _ => b"",
        };
        if to.write_all(reply).is_err() {
            return;
        }
    }
}

fn quick() -> Options {
    Options {
        timeout: Duration::from_millis(300),
        ..Options::default()
    }
}

#[test]
fn a_client_speaks_over_a_stream_and_connects_anew() {
    let made = Arc::new(AtomicUsize::new(0));
    let counted = Arc::clone(&made);
    let layer = move |socket| {
        counted.fetch_add(1, Ordering::SeqCst);
        Ok(Masked(socket))
    };
    let mut client = Client::connect_over(&serve(), "t", Options::default(), layer).unwrap();
    assert_eq!(client.get(3).unwrap(), 5);
    assert_eq!(made.load(Ordering::SeqCst), 2);
    client.close();
}

#[test]
fn a_reply_over_a_stream_is_waited_for_within_its_time() {
    let mut client = Client::connect_over(&serve(), "t", quick(), |it| Ok(Masked(it))).unwrap();
    let began = Instant::now();
    let text = client.get(7).err().map(|it| it.to_string());
    let wanted = "no connection: connected, but no reply in 300 ms";
    assert_eq!(text.as_deref(), Some(wanted));
    assert!(began.elapsed() >= Duration::from_millis(300));
}

#[test]
fn a_client_says_what_it_means_if_no_first_reply_comes() {
    let listener = TcpListener::bind("127.0.0.1:0").unwrap();
    let at = listener.local_addr().unwrap().to_string();
    let text = Client::connect(&at, "t", quick())
        .err()
        .map(|it| it.to_string());
    let wanted = "no connection: connected, but no reply in 300 ms; perhaps all sessions are taken (mwserve --clients)";
    assert_eq!(text.as_deref(), Some(wanted));
}

#[test]
fn a_stream_that_cannot_begin_is_lost() {
    let layer = |_| Err::<TcpStream, io::Error>(io::Error::new(io::ErrorKind::Other, "no"));
    let failure = Client::connect_over(&serve(), "t", quick(), layer).err();
    assert!(matches!(failure, Some(Error::Lost(_))));
}

#[test]
fn a_greeting_of_a_stream_has_a_limit_of_time() {
    let layer = |mut socket: TcpStream| {
        socket.read_exact(&mut [0])?;
        Ok(Masked(socket))
    };
    let failure = Client::connect_over(&serve(), "t", quick(), layer).err();
    assert!(matches!(failure, Some(Error::Lost(_))));
}

#[test]
fn a_stream_is_over_tcp_alone() {
    let failure = Client::connect_over("unix:s", "t", quick(), |it| Ok(Masked(it))).err();
    assert!(matches!(failure, Some(Error::Invalid(_))));
}

#[test]
fn an_administrator_speaks_over_a_stream() {
    let made = Administrator::connect_over(&serve(), Options::default(), |it| Ok(Masked(it)));
    made.unwrap().close();
}
