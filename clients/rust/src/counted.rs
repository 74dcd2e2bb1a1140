//! Counted changes: a word that only these move, and what it tells of a change whose reply was lost. Used by: programs. What it tells is the
//! same in each client: change them together, with a case in clients/cases/counted.txt.

use std::time::{Duration, Instant};

use crate::client::Client;
use crate::error::Error;
use crate::link::Pause;
use crate::protocol::{checked_entries, Entry, Outcome};
use crate::session::check_time;

/// Changes of which it is found out whether they were made, if replies are lost and servers end.
///
/// Each also moves a count by 2: a word, of any value at first, that nothing else writes. While a change is undecided, one of the
/// count alone, by 1, is asked for until that is answered: either it is made, and the other never can be, or the count tells that the
/// other was. One thread of one process at a time has a count, and one `Counted` of it.
#[derive(Debug)]
pub struct Counted {
    address: u16,
    wait: Duration,
    count: u64,
    /// A change is noted as undecided before it is sent.
    is_undecided: bool,
    /// Whether the last change was made, or, if it is undecided, may have been.
    is_made: bool,
}

impl Counted {
    /// `address`: the count's. `wait`: for how long to connect the client anew and ask again, while that fails or the server is busy.
    ///
    /// It moves the count: from then on no change of an earlier `Counted` of it is made any more. Errors as of [`Client::cas`].
    pub fn begin(client: &mut Client, address: u16, wait: Duration) -> Result<Counted, Error> {
        check_time("wait", wait)?;
        let mut counted = Counted {
            address,
            wait,
            count: 0,
            is_undecided: false,
            is_made: false,
        };
        while let Some(value) = counted.moved(client)? {
            counted.count = value;
        }
        counted.count += 1;
        Ok(counted)
    }

    /// As [`Client::cas`], of up to fifteen entries; but after `Lost` or `Unknown` it connects `client` anew and finds out. It first
    /// does so for the change before, if that is undecided, and forgets its outcome: call [`settle`](Counted::settle) first. What it
    /// tells as not made never will be. If a reply was lost it tells no word then, and perhaps none differs: read again, or send it
    /// again.
    ///
    /// `Unknown`, with its cause, if its change stays undecided: then [`settle`](Counted::settle) tells. `Moved` if something else
    /// writes the count. After any other error its change was not made, and never will be.
    pub fn cas(&mut self, client: &mut Client, entries: &[Entry]) -> Result<Outcome, Error> {
        self.is_made = false;
        self.make_ready(client)?;
        let mut all = entries.to_vec();
        all.push(Entry::new(self.address, self.count, self.count + 2));
        let all = checked_entries(&all, client.words())?;
        self.is_undecided = true;
        self.is_made = true;
        match client.cas(&all) {
            Ok(outcome) => self.decided(outcome),
            Err(error) if error.is_gone() => Ok(match self.settle(client)? {
                true => Outcome::Made,
                false => Outcome::NotMade(None),
            }),
            Err(error @ (Error::Fault | Error::Worn)) => Err(self.undecided(error)),
            Err(error) => {
                self.is_undecided = false;
                self.is_made = false;
                Err(error)
            }
        }
    }

    /// Whether the last change was made, whatever its [`cas`](Counted::cas) told; if not, it never will be. false before the first one.
    ///
    /// `Unknown`, with its cause, as long as it can't tell: after `wait`, or at once from `Fault`, `Worn` and `Refused`. `Moved` if
    /// something else writes the count.
    pub fn settle(&mut self, client: &mut Client) -> Result<bool, Error> {
        self.find_out(client)
            .map_err(|error| self.undecided(error))?;
        Ok(self.is_made)
    }

    /// What an answer says of the change.
    fn decided(&mut self, outcome: Outcome) -> Result<Outcome, Error> {
        self.is_undecided = false;
        self.is_made = outcome.made();
        match outcome {
            Outcome::Made => self.count += 2,
            Outcome::NotMade(Some(miss)) if miss.address == self.address => {
                return Err(Error::Moved(self.address))
            }
            Outcome::NotMade(_) => {}
        }
        Ok(outcome)
    }

    /// What is told if this leaves the last change undecided.
    fn undecided(&self, cause: Error) -> Error {
        match cause {
            Error::Moved(_) => cause,
            _ => Error::Unknown {
                text: format!(
                    "the last change with the count at {}: {cause}",
                    self.address
                ),
                cause: Some(Box::new(cause)),
            },
        }
    }

    /// Settles the change before. A new one that waits for this was not sent, so it isn't `Unknown`.
    fn make_ready(&mut self, client: &mut Client) -> Result<(), Error> {
        self.find_out(client).map_err(|error| match error {
            Error::Unknown { text, .. } => Error::Lost(format!("not sent: {text}")),
            other => other,
        })
    }

    /// Finds out whether the last change was made, if it is undecided.
    fn find_out(&mut self, client: &mut Client) -> Result<(), Error> {
        if !self.is_undecided {
            return Ok(());
        }
        let value = self.moved(client)?.unwrap_or(self.count + 1);
        if value <= self.count || value > self.count + 2 {
            return Err(Error::Moved(self.address));
        }
        self.is_made = self.is_made && value == self.count + 2;
        self.count = value;
        self.is_undecided = false;
        Ok(())
    }

    /// Moves the count by 1: None; or the other value that it has. While the server is busy or there is no connection it asks again,
    /// for `wait`.
    fn moved(&self, client: &mut Client) -> Result<Option<u64>, Error> {
        let end = Instant::now() + self.wait;
        let mut pause = Pause::until(end);
        let entry = [Entry::new(self.address, self.count, self.count + 1)];
        loop {
            let error = match client.cas(&entry) {
                Ok(Outcome::Made) => return Ok(None),
                Ok(Outcome::NotMade(miss)) => return Ok(miss.map(|it| it.value)),
                Err(error) => error,
            };
            let is_gone = error.is_gone();
            if !(is_gone || matches!(error, Error::Busy)) || !pause.wait() {
                return Err(error);
            }
            if is_gone {
                client.reconnect(end.saturating_duration_since(Instant::now()))?;
            }
        }
    }
}
