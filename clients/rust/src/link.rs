//! One connection over TCP or to a local socket, with limits of time; and pauses. Used by: session.rs; client.rs for streams, counted.rs for
//! pauses. These and the limits are the same in each client: change them together, with a case in clients/cases.

use std::collections::hash_map::RandomState;
use std::hash::{BuildHasher, Hasher};
use std::io::{self, Read, Write};
use std::net::{Shutdown, SocketAddr, TcpStream, ToSocketAddrs};
use std::os::unix::net::UnixStream;
use std::sync::mpsc::{channel, Receiver, RecvTimeoutError};
use std::thread;
use std::time::{Duration, Instant};

use crate::protocol::Place;

const FIRST_PAUSE: Duration = Duration::from_millis(1);
const LONGEST_PAUSE: Duration = Duration::from_millis(250);
/// How many bytes are asked for at a time.
const PIECE: usize = 4096;

/// Pauses that grow, and are partly random, up to an end.
pub(crate) struct Pause {
    next: Duration,
    end: Instant,
}

impl Pause {
    pub(crate) fn until(end: Instant) -> Pause {
        Pause {
            next: FIRST_PAUSE,
            end,
        }
    }

    /// Lets some time pass. false, at once, if the end has come.
    pub(crate) fn wait(&mut self) -> bool {
        let left = self.end.saturating_duration_since(Instant::now());
        if left.is_zero() {
            return false;
        }
        let random = RandomState::new().build_hasher().finish() % 1024;
        thread::sleep(left.min(self.next.mul_f64(0.5 + random as f64 / 2048.0)));
        self.next = LONGEST_PAUSE.min(2 * self.next);
        true
    }
}

/// What is left up to a moment; an error if nothing is.
fn left(end: Instant) -> io::Result<Duration> {
    let left = end.saturating_duration_since(Instant::now());
    if left.is_zero() {
        return Err(io::Error::new(io::ErrorKind::TimedOut, "timed out"));
    }
    Ok(left)
}

/// Whether this says that the server has closed or reset the connection.
pub(crate) fn is_end_of_link(error: &io::Error) -> bool {
    matches!(
        error.kind(),
        io::ErrorKind::UnexpectedEof
            | io::ErrorKind::ConnectionReset
            | io::ErrorKind::ConnectionAborted
            | io::ErrorKind::BrokenPipe
    )
}

/// Whether this says that the time is over.
pub(crate) fn is_late(error: &io::Error) -> bool {
    matches!(
        error.kind(),
        io::ErrorKind::TimedOut | io::ErrorKind::WouldBlock
    )
}

fn ended() -> io::Error {
    io::Error::new(
        io::ErrorKind::UnexpectedEof,
        "the server closed the connection",
    )
}

/// What a client can speak over in place of its bare connection: a stream of TLS, for example.
pub trait Stream: Read + Write + Send {}

impl<T: Read + Write + Send> Stream for T {}

/// What makes a stream over each new connection of a client.
pub(crate) type Layer = Box<dyn FnMut(TcpStream) -> io::Result<Box<dyn Stream>> + Send>;

/// A connection.
pub(crate) enum Link {
    Tcp(TcpStream),
    Local(UnixStream),
    /// A stream, and the connection that it is over, whose limits of time are set.
    Over(Box<dyn Stream>, TcpStream),
}

/// Lets reads and writes of a connection fail at this moment. A stream over it may do either for each of its own.
fn limit(socket: &TcpStream, end: Instant) -> io::Result<()> {
    let limit = Some(left(end)?);
    socket.set_read_timeout(limit)?;
    socket.set_write_timeout(limit)
}

impl Link {
    /// Sends all of this.
    pub(crate) fn send(&mut self, bytes: &[u8], end: Instant) -> io::Result<()> {
        let time = Some(left(end)?);
        match self {
            Link::Tcp(stream) => {
                stream.set_write_timeout(time)?;
                stream.write_all(bytes)
            }
            Link::Local(stream) => {
                stream.set_write_timeout(time)?;
                stream.write_all(bytes)
            }
            Link::Over(stream, socket) => {
                limit(socket, end)?;
                stream.write_all(bytes)?;
                stream.flush()
            }
        }
    }

    /// Adds some of what the server has sent; an error if it has closed the connection.
    pub(crate) fn receive(&mut self, to: &mut Vec<u8>, end: Instant) -> io::Result<()> {
        let mut piece = [0; PIECE];
        loop {
            let time = Some(left(end)?);
            let came = match self {
                Link::Tcp(stream) => {
                    stream.set_read_timeout(time)?;
                    stream.read(&mut piece)
                }
                Link::Local(stream) => {
                    stream.set_read_timeout(time)?;
                    stream.read(&mut piece)
                }
                Link::Over(stream, socket) => {
                    limit(socket, end)?;
                    stream.read(&mut piece)
                }
            };
            match came {
                Ok(0) => return Err(ended()),
                Ok(count) => {
                    to.extend_from_slice(&piece[..count]);
                    return Ok(());
                }
                Err(error) if error.kind() == io::ErrorKind::Interrupted => {}
                Err(error) => return Err(error),
            }
        }
    }

    /// Says `QUIT`, ends the writing side, and reads to the end; of a stream it reads what comes first.
    pub(crate) fn finish(&mut self, end: Instant) -> io::Result<()> {
        self.send(b"QUIT\n", end)?;
        match self {
            Link::Tcp(stream) => stream.shutdown(Shutdown::Write)?,
            Link::Local(stream) => stream.shutdown(Shutdown::Write)?,
            Link::Over(..) => return self.receive(&mut Vec::new(), end),
        }
        let mut rest = Vec::new();
        loop {
            self.receive(&mut rest, end)?;
            rest.clear();
        }
    }
}

/// What connects, again and again, to one place.
pub(crate) struct Dialer {
    place: Place,
    layer: Option<Layer>,
    /// A connection to a local socket that was full when the time was over: its thread still waits for room.
    waiting: Option<Receiver<io::Result<UnixStream>>>,
}

impl Dialer {
    /// `layer`: for a port alone.
    pub(crate) fn new(place: Place, layer: Option<Layer>) -> Dialer {
        Dialer {
            place,
            layer,
            waiting: None,
        }
    }

    /// A new connection.
    pub(crate) fn connect(&mut self, end: Instant) -> io::Result<Link> {
        match &self.place {
            Place::Port(host, port) => {
                let socket = over_tcp(host, *port, end)?;
                match &mut self.layer {
                    None => Ok(Link::Tcp(socket)),
                    Some(layer) => {
                        let own = socket.try_clone()?;
                        limit(&own, end)?;
                        Ok(Link::Over(layer(socket)?, own))
                    }
                }
            }
            Place::LocalSocket(path) => {
                let path = path.clone();
                self.at_local_socket(path, end).map(Link::Local)
            }
        }
    }

    /// A connection to a local socket waits in the system for room, without a limit of time. So a thread makes it.
    fn at_local_socket(&mut self, path: String, end: Instant) -> io::Result<UnixStream> {
        let waiting = match self.waiting.take() {
            Some(waiting) => waiting,
            None => connect_in_a_thread(path)?,
        };
        match waiting.recv_timeout(left(end)?) {
            Ok(made) => made,
            Err(RecvTimeoutError::Timeout) => {
                self.waiting = Some(waiting);
                Err(io::Error::new(
                    io::ErrorKind::TimedOut,
                    "the local socket is full",
                ))
            }
            Err(RecvTimeoutError::Disconnected) => Err(ended()),
        }
    }
}

/// What will tell of a connection to a local socket.
fn connect_in_a_thread(path: String) -> io::Result<Receiver<io::Result<UnixStream>>> {
    let (told, waiting) = channel();
    // Nobody hears it if the client was dropped meanwhile.
    let work = move || drop(told.send(UnixStream::connect(path)));
    thread::Builder::new().spawn(work)?;
    Ok(waiting)
}

/// A connection to the first address of a host that takes one.
fn over_tcp(host: &str, port: u16, end: Instant) -> io::Result<TcpStream> {
    let mut found = Err(io::Error::new(
        io::ErrorKind::NotFound,
        "the host has no address",
    ));
    for address in (host, port).to_socket_addrs()? {
        found = at_address(&address, end);
        if found.is_ok() {
            break;
        }
    }
    found
}

/// A connection whose two ends differ. The system may connect a socket to itself if nobody listens at a port of this machine.
fn at_address(address: &SocketAddr, end: Instant) -> io::Result<TcpStream> {
    let stream = TcpStream::connect_timeout(address, left(end)?)?;
    let other = stream
        .peer_addr()
        .map_err(|_| io::Error::new(io::ErrorKind::ConnectionReset, "reset"))?;
    if stream.local_addr()? == other {
        return Err(io::Error::new(
            io::ErrorKind::ConnectionRefused,
            "nobody listens",
        ));
    }
    stream.set_nodelay(true)?;
    Ok(stream)
}
