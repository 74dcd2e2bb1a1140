//! The calls of a tenant and of the administrator. Used by: programs, counted.rs. A further call is one of each client, has a case in
//! examples/play.rs, and cases in clients/cases.

use std::io;
use std::net::TcpStream;
use std::time::{Duration, Instant};

use crate::error::Error;
use crate::link::{Layer, Stream};
use crate::protocol::{
    cas, checked_entries, get, place_of, report, Entry, Gone, Greeting, Miss, Outcome, Report,
    MAX_ENTRIES,
};
use crate::session::{Options, Session};

/// A session for one tenant, whose words it reads and changes. Dropped, it closes its connection without a goodbye.
pub struct Client {
    session: Session,
}

impl Client {
    /// Connects to `server`, and speaks for `tenant` from then on.
    ///
    /// `server`: where it listens. `HOST:PORT`: a name, or an address (of IPv6 in brackets), and a port from 1 to 65535; or
    /// `unix:PATH`: the path of a local socket, 1 to 107 bytes. `tenant`: a letter a to z, then up to 15 of a to z, 0 to 9 and "-".
    ///
    /// `Invalid`, with nothing sent; `Lost`; `Full`; `Refused`, with number 5, if no tenant has the name.
    pub fn connect(server: &str, tenant: &str, options: Options) -> Result<Client, Error> {
        let greeting = Greeting::tenant(tenant)?;
        let session = Session::begin(place_of(server)?, options, greeting, None)?;
        Ok(Client { session })
    }

    /// As [`connect`](Client::connect), to a `HOST:PORT`, but it speaks over a stream that `layer` makes of each connection: by TLS,
    /// for example, to a proxy in front of the server, which has none itself.
    ///
    /// `layer` makes the greeting of its protocol too. Its error is `Lost`. Each read and write of the connection below ends at the
    /// call's limit of time, with the kind of error that the connection gives; the stream hands this on.
    pub fn connect_over<S: Stream + 'static>(
        server: &str,
        tenant: &str,
        options: Options,
        layer: impl FnMut(TcpStream) -> io::Result<S> + Send + 'static,
    ) -> Result<Client, Error> {
        let greeting = Greeting::tenant(tenant)?;
        let session = Session::begin(place_of(server)?, options, greeting, boxed(layer))?;
        Ok(Client { session })
    }

    /// How many words the tenant has, 1 to 4096, as the server said when it was connected. It asks nobody.
    pub fn words(&self) -> u16 {
        self.session.words
    }

    /// Ends the session and closes the connection. It waits for the server's goodbye, a second at most. Each further call is `Lost`,
    /// until [`reconnect`](Client::reconnect).
    pub fn close(&mut self) {
        self.session.close();
    }

    /// Connects anew, after `Lost`, `Unknown` or `close`. A connection that there is, is closed first. `within`: for how long to try
    /// again, with growing pauses, if that fails.
    ///
    /// `Invalid`, with nothing done; `Lost` or `Full`; `Refused` at once.
    pub fn reconnect(&mut self, within: Duration) -> Result<(), Error> {
        self.session.reconnect(within)
    }

    /// The value of the word at `address`: durable, and no older than what this connection was told before. It costs no disk access.
    ///
    /// If the connection has broken, it connects anew and asks again, as often as the options say. `Invalid`; `Lost`; `Fault`; and,
    /// when it connects anew, `Full` or `Refused`.
    pub fn get(&mut self, address: u16) -> Result<u64, Error> {
        Ok(self.get_many(&[address])?[0])
    }

    /// The values of any number of words, each of its own moment, by one round trip for up to 512. Errors as of
    /// [`get`](Client::get).
    pub fn get_many(&mut self, addresses: &[u16]) -> Result<Vec<u64>, Error> {
        self.check_addresses(addresses)?;
        if addresses.is_empty() {
            return Ok(Vec::new());
        }
        self.session.ask(&get(addresses))
    }

    /// The values of one to sixteen different words, all of one moment; one may come again.
    ///
    /// A single word is read by `get`. Several are guessed, then confirmed by a change that writes to each the value that it has. So it
    /// costs the disk as much as a change, and beside many writers it may end as `Busy`. Errors as of [`get`](Client::get), `Busy`
    /// and `Worn`. It changes no word.
    pub fn read(&mut self, addresses: &[u16]) -> Result<Vec<u64>, Error> {
        self.check_addresses(addresses)?;
        let mut different = addresses.to_vec();
        different.sort_unstable();
        different.dedup();
        if different.is_empty() || different.len() > MAX_ENTRIES {
            return Err(Error::Invalid(format!(
                "one to {MAX_ENTRIES} different words are read at a time"
            )));
        }
        let end = Instant::now() + self.session.options.patience;
        let mut values = self.get_many(&different)?;
        while let Some(miss) = self.confirm(&different, &values, end)? {
            if Instant::now() >= end {
                return Err(Error::Busy);
            }
            values[place_of_address(&different, miss.address)] = miss.value;
        }
        let value = |it: &u16| values[place_of_address(&different, *it)];
        Ok(addresses.iter().map(value).collect())
    }

    /// Asks for the change that writes to each word its guessed value; of one word there is nothing to ask.
    fn confirm(
        &mut self,
        addresses: &[u16],
        values: &[u64],
        end: Instant,
    ) -> Result<Option<Miss>, Error> {
        if addresses.len() == 1 {
            return Ok(None);
        }
        let same = |(address, value): (&u16, &u64)| Entry::new(*address, *value, *value);
        let entries: Vec<Entry> = addresses.iter().zip(values).map(same).collect();
        let question = cas(&entries, Gone::Lost);
        self.session.ask_until(&question, end)
    }

    /// The values of any number of words, all of one moment, without the disk: reads them until two readings are equal.
    ///
    /// This is right only if no word that is read ever returns to an earlier value; put a word that only grows beside those that may.
    /// Errors as of [`get`](Client::get), and `Busy` if the words changed for as long as the client has patience.
    pub fn stable(&mut self, addresses: &[u16]) -> Result<Vec<u64>, Error> {
        let end = Instant::now() + self.session.options.patience;
        // The server answers a line before it looks at the next one, so two readings may be sent together.
        let mut before = self.get_many(&[addresses, addresses].concat())?;
        let mut values = before.split_off(addresses.len());
        while values != before {
            if Instant::now() >= end {
                return Err(Error::Busy);
            }
            let next = self.get_many(addresses)?;
            before = std::mem::replace(&mut values, next);
        }
        Ok(values)
    }

    /// Compares and swaps: writes each entry's new value if all the words have the values expected, else nothing. One to sixteen
    /// entries in any order, each of another word. While the server is busy it asks again.
    ///
    /// `Invalid`, with nothing sent; `Lost`, `Busy`, `Refused`: not made. `Unknown`, `Fault`, `Worn`: undecided. It never connects anew.
    pub fn cas(&mut self, entries: &[Entry]) -> Result<Outcome, Error> {
        let checked = checked_entries(entries, self.session.words)?;
        let end = Instant::now() + self.session.options.patience;
        let miss = self.session.ask_until(&cas(&checked, Gone::Unknown), end)?;
        Ok(miss.map_or(Outcome::Made, |it| Outcome::NotMade(Some(it))))
    }

    fn check_addresses(&self, addresses: &[u16]) -> Result<(), Error> {
        match addresses.iter().find(|it| **it >= self.session.words) {
            Some(address) => Err(Error::Invalid(format!(
                "the tenant has {} words, and none at {address}",
                self.session.words
            ))),
            None => Ok(()),
        }
    }
}

fn boxed<S: Stream + 'static>(
    mut layer: impl FnMut(TcpStream) -> io::Result<S> + Send + 'static,
) -> Option<Layer> {
    Some(Box::new(move |socket| Ok(Box::new(layer(socket)?))))
}

/// Where an address is among sorted ones.
fn place_of_address(addresses: &[u16], address: u16) -> usize {
    addresses.partition_point(|it| *it < address)
}

/// A session of the administrator, who asks how the tenants are and sees no words.
pub struct Administrator {
    session: Session,
}

impl Administrator {
    /// Connects to `server`, perhaps at a place for the administrator alone. Otherwise as [`Client::connect`].
    pub fn connect(server: &str, options: Options) -> Result<Administrator, Error> {
        let greeting = Greeting::Administrator;
        let session = Session::begin(place_of(server)?, options, greeting, None)?;
        Ok(Administrator { session })
    }

    /// As [`Client::connect_over`].
    pub fn connect_over<S: Stream + 'static>(
        server: &str,
        options: Options,
        layer: impl FnMut(TcpStream) -> io::Result<S> + Send + 'static,
    ) -> Result<Administrator, Error> {
        let greeting = Greeting::Administrator;
        let session = Session::begin(place_of(server)?, options, greeting, boxed(layer))?;
        Ok(Administrator { session })
    }

    /// How each tenant is, and the room of the server. It connects anew as [`Client::get`] does. `Lost`, `Full`, `Refused`.
    pub fn report(&mut self) -> Result<Report, Error> {
        self.session.ask(&report())
    }

    /// As [`Client::reconnect`].
    pub fn reconnect(&mut self, within: Duration) -> Result<(), Error> {
        self.session.reconnect(within)
    }

    /// As [`Client::close`].
    pub fn close(&mut self) {
        self.session.close();
    }
}
