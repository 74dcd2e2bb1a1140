//! A session: it connects, asks, asks again, and tells how a lost connection counts. Used by: client.rs, counted.rs. When it asks again is the
//! same in each client: change them together, with a case in clients/cases.

use std::io;
use std::time::{Duration, Instant};

use crate::error::Error;
use crate::link::{is_end_of_link, is_late, Dialer, Layer, Link, Pause};
use crate::protocol::{
    failure_of, is_end, is_too_long, Gone, Greeting, Place, Question, Reply, LINES_AT_ONCE,
    MAX_REPLY,
};

/// The longest time of an option.
pub const MAX_TIME: Duration = Duration::from_secs(1_000_000);
/// The most times that one call may connect anew.
pub const MAX_RECONNECTS: u32 = 1000;
const GOODBYE: Duration = Duration::from_secs(1);

/// How long a client waits, and how often it asks. Times are up to [`MAX_TIME`].
#[derive(Clone, Debug)]
pub struct Options {
    /// How long to wait for a connection, and then for each reply, above 0; 10 seconds. A name is looked up without this limit.
    pub timeout: Duration,
    /// For how long `cas`, `read` and `stable` ask again, with growing pauses, while the server is busy; 5 seconds.
    pub patience: Duration,
    /// For how long to try again if connecting fails, also when a call connects anew; 0.
    pub within: Duration,
    /// How often one call of `get`, `get_many`, `read`, `stable` or `report` connects anew and asks again if the connection has
    /// broken, 0 to [`MAX_RECONNECTS`]; 1. A reply that doesn't come in time isn't asked for again.
    pub reconnects: u32,
}

impl Default for Options {
    fn default() -> Options {
        Options {
            timeout: Duration::from_secs(10),
            patience: Duration::from_secs(5),
            within: Duration::ZERO,
            reconnects: 1,
        }
    }
}

/// `Invalid` if this is above the longest time.
pub(crate) fn check_time(name: &str, time: Duration) -> Result<(), Error> {
    if time > MAX_TIME {
        return Err(Error::Invalid(format!(
            "{name} has to be from 0 to {} seconds",
            MAX_TIME.as_secs()
        )));
    }
    Ok(())
}

fn check(options: &Options) -> Result<(), Error> {
    check_time("timeout", options.timeout)?;
    check_time("patience", options.patience)?;
    check_time("within", options.within)?;
    if options.timeout.is_zero() {
        return Err(Error::Invalid("timeout has to be above 0".into()));
    }
    if options.reconnects > MAX_RECONNECTS {
        return Err(Error::Invalid(format!(
            "reconnects has to be from 0 to {MAX_RECONNECTS}"
        )));
    }
    Ok(())
}

#[derive(Clone, Copy, PartialEq, Eq)]
enum State {
    Open,
    Broken,
    Closed,
}

/// A session, over one connection after the other.
pub(crate) struct Session {
    pub(crate) options: Options,
    pub(crate) words: u16,
    greeting: Greeting,
    dialer: Dialer,
    /// Whether no stream is over its connections.
    is_bare: bool,
    state: State,
    link: Option<Link>,
    /// What came and was not taken yet.
    rest: Vec<u8>,
    /// Whether no byte has come over this connection.
    is_silent: bool,
    /// Whether the last failure was a reply that did not come in time.
    is_late: bool,
}

fn strange(reply: &str) -> io::Error {
    io::Error::new(
        io::ErrorKind::InvalidData,
        format!("not a reply of the protocol: {reply:?}"),
    )
}

/// What is told of a reply that did not come in time.
fn late(is_silent: bool, timeout: Duration) -> String {
    let why = match is_silent {
        true => "; perhaps all sessions are taken (mwserve --clients)",
        false => "",
    };
    format!("connected, but no reply in {} ms{why}", timeout.as_millis())
}

impl Session {
    /// Connects, and tries again for as long as the options say.
    pub(crate) fn begin(
        place: Place,
        options: Options,
        greeting: Greeting,
        layer: Option<Layer>,
    ) -> Result<Session, Error> {
        check(&options)?;
        if layer.is_some() && matches!(place, Place::LocalSocket(_)) {
            return Err(Error::Invalid(
                "a stream is over TCP, not over a local socket".into(),
            ));
        }
        let end = Instant::now() + options.within;
        let mut session = Session {
            options,
            words: 0,
            greeting,
            is_bare: layer.is_none(),
            dialer: Dialer::new(place, layer),
            state: State::Closed,
            link: None,
            rest: Vec::new(),
            is_silent: true,
            is_late: false,
        };
        session.begin_until(end)?;
        Ok(session)
    }

    /// Ends a session that there is, and begins anew.
    pub(crate) fn reconnect(&mut self, within: Duration) -> Result<(), Error> {
        check_time("within", within)?;
        let end = Instant::now() + within;
        self.close();
        self.begin_until(end)
    }

    /// Ends the session, and waits for the server's goodbye, a second at most.
    pub(crate) fn close(&mut self) {
        if self.state == State::Open {
            let end = Instant::now() + GOODBYE.min(self.options.timeout);
            if let Some(link) = self.link.as_mut() {
                // It ends with an error in any case, the end of the connection among them.
                let _ = link.finish(end);
            }
        }
        self.drop_link();
        self.state = State::Closed;
    }

    fn drop_link(&mut self) {
        self.state = State::Broken;
        self.link = None;
        self.rest.clear();
        self.is_silent = true;
    }

    /// Begins; if there is no connection it tries again, with growing pauses, up to the end.
    fn begin_until(&mut self, end: Instant) -> Result<(), Error> {
        let mut pause = Pause::until(end);
        loop {
            match self.begin_once() {
                Err(Error::Lost(_) | Error::Full(_)) if pause.wait() => {}
                done => return done,
            }
        }
    }

    /// A new connection and its greeting, in place of what there was.
    fn begin_once(&mut self) -> Result<(), Error> {
        self.drop_link();
        match self.dialer.connect(Instant::now() + self.options.timeout) {
            Ok(link) => self.link = Some(link),
            Err(error) if self.is_bare && error.kind() == io::ErrorKind::ConnectionReset => {
                return Err(Error::Full(format!("connecting: {error}")))
            }
            Err(error) => return Err(Error::Lost(format!("connecting: {error}"))),
        }
        let greeting = self.greeting.question();
        match self.answer(&greeting) {
            Ok(words) => {
                self.words = words;
                self.state = State::Open;
                Ok(())
            }
            Err(error) => {
                self.drop_link();
                Err(error)
            }
        }
    }

    /// The answer. If nothing can be changed and the connection has broken, it is asked again over a new one, as often as the
    /// options say. A reply that is late isn't waited for again.
    pub(crate) fn ask<T>(&mut self, question: &Question<T>) -> Result<T, Error> {
        let mut left = match question.gone {
            Gone::Lost => self.options.reconnects,
            Gone::Unknown => 0,
        };
        loop {
            let answer = self.ask_once(question);
            let can_ask_again = left > 0 && self.state == State::Broken && !self.is_late;
            match answer {
                Err(Error::Lost(_)) if can_ask_again => {}
                done => return done,
            }
            left -= 1;
            self.begin_until(Instant::now() + self.options.within)?;
        }
    }

    /// Asks again while the server is busy, up to the end.
    pub(crate) fn ask_until<T>(
        &mut self,
        question: &Question<T>,
        end: Instant,
    ) -> Result<T, Error> {
        let mut pause = Pause::until(end);
        loop {
            match self.ask(question) {
                Err(Error::Busy) if pause.wait() => {}
                done => return done,
            }
        }
    }

    /// The answer over the connection that there is.
    fn ask_once<T>(&mut self, question: &Question<T>) -> Result<T, Error> {
        self.is_late = false;
        if self.state != State::Open {
            let why = match self.state {
                State::Closed => "is closed",
                _ => "has lost its connection",
            };
            return Err(Error::Lost(format!("not sent, the client {why}")));
        }
        self.answer(question)
    }

    /// The answer over this connection. Whatever ends the exchange before its last reply closes the connection, because a late reply
    /// would be taken for that of the next line.
    fn answer<T>(&mut self, question: &Question<T>) -> Result<T, Error> {
        let replies = self.exchange(&question.lines, question.is_report);
        let replies = replies.map_err(|error| self.gone(question.gone, &error))?;
        if let Some(error) = question.lines.iter().zip(&replies).find_map(failed) {
            return Err(error);
        }
        let answer = (question.meaning)(&replies);
        answer.ok_or_else(|| self.gone(question.gone, &strange(&replies.concat().join("; "))))
    }

    /// Closes the connection, and tells what that means.
    fn gone(&mut self, gone: Gone, error: &io::Error) -> Error {
        let is_full = self.is_silent && is_end_of_link(error);
        self.is_late = is_late(error);
        let text = match self.is_late {
            true => late(self.is_silent, self.options.timeout),
            false => error.to_string(),
        };
        self.drop_link();
        match gone {
            _ if is_full => Error::Full(text),
            Gone::Lost => Error::Lost(text),
            Gone::Unknown => Error::Unknown { text, cause: None },
        }
    }

    /// Sends the lines and reads their replies.
    fn exchange(&mut self, lines: &[String], is_report: bool) -> io::Result<Vec<Reply>> {
        let mut replies = Vec::with_capacity(lines.len());
        for piece in lines.chunks(LINES_AT_ONCE) {
            let end = Instant::now() + self.options.timeout;
            let text = piece.join("\n") + "\n";
            self.link()?.send(text.as_bytes(), end)?;
            let told: io::Result<Vec<Reply>> =
                piece.iter().map(|_| self.reply(is_report)).collect();
            replies.append(&mut told?);
        }
        if !self.rest.is_empty() {
            return Err(strange(&String::from_utf8_lossy(&self.rest)));
        }
        Ok(replies)
    }

    fn link(&mut self) -> io::Result<&mut Link> {
        let none = || io::Error::new(io::ErrorKind::NotConnected, "there is no connection");
        self.link.as_mut().ok_or_else(none)
    }

    /// The next reply.
    fn reply(&mut self, is_report: bool) -> io::Result<Reply> {
        let end = Instant::now() + self.options.timeout;
        let mut lines = Vec::new();
        loop {
            let line = self.line(end)?;
            let is_last = is_end(&line, is_report);
            lines.push(line);
            if is_last {
                return Ok(lines);
            }
            if is_too_long(lines.len()) {
                return Err(strange(&lines.join("; ")));
            }
        }
    }

    /// The next line, without its line feed.
    fn line(&mut self, end: Instant) -> io::Result<String> {
        loop {
            let stop = self.rest.iter().position(|it| *it == b'\n');
            let length = stop.unwrap_or(self.rest.len());
            if length > MAX_REPLY {
                return Err(strange(&String::from_utf8_lossy(&self.rest[..MAX_REPLY])));
            }
            if stop.is_some() {
                let line: Vec<u8> = self.rest.drain(..=length).collect();
                return Ok(String::from_utf8_lossy(&line[..length]).into_owned());
            }
            let mut rest = std::mem::take(&mut self.rest);
            let came = self.link()?.receive(&mut rest, end);
            self.rest = rest;
            self.is_silent &= self.rest.is_empty();
            came?;
        }
    }
}

/// The failure that a reply to a line tells, if it tells one.
fn failed((line, reply): (&String, &Reply)) -> Option<Error> {
    reply.last().and_then(|last| failure_of(line, last))
}
