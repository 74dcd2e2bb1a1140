//! What goes wrong, and what that says of a change. Used by: programs, client.rs, counted.rs, protocol.rs, session.rs. A further
//! kind is one of each client, has a word in clients/cases/README.md, and a case in examples/play.rs.

use std::fmt;

/// Any failure of a call. *Undecided*: a change was made, or it was not, or it will still be made.
///
/// | | after [`Client::cas`](crate::Client::cas) | after [`Counted::cas`](crate::Counted::cas) | the connection |
/// |---|---|---|---|
/// | `Lost`, `Full`, `Busy`, `Refused`, `Invalid` | not made | not made | `Lost` and `Full`: is closed, else stays |
/// | `Unknown` | undecided | undecided | is closed |
/// | `Fault`, `Worn` | undecided | not made | stays |
/// | `Moved` | | not known | stays |
#[derive(Debug)]
#[non_exhaustive]
pub enum Error {
    /// An argument is out of its range. Nothing was sent.
    Invalid(String),
    /// There is no connection, or it broke or timed out before a reply; the text says why. Nothing was changed.
    Lost(String),
    /// As `Lost`: the server closed a new connection before it gave any reply, as one does that is full. Connect again later.
    Full(String),
    /// The connection broke or timed out before a change was answered: it is undecided.
    Unknown {
        /// What happened.
        text: String,
        /// Of a `Counted`: what leaves its change undecided.
        cause: Option<Box<Error>>,
    },
    /// The server was busy, or the words changed, for as long as the client has patience. Nothing was changed.
    Busy,
    /// The tenant's file has failed or did not open: all calls end so until the server is started again.
    Fault,
    /// A number of the server has come to its end. After a restart the server counts from 0 again.
    Worn,
    /// The server refuses the line and has done nothing.
    Refused {
        /// What was sent.
        line: String,
        /// The number of its `ERR`, 1 to 99: docs/PROTOCOL.md says what each stands for. 5: no tenant has the name.
        number: u8,
    },
    /// Something else has moved the count at this address.
    Moved(u16),
}

impl Error {
    /// Whether there is no connection after this: `Lost`, `Full` and `Unknown`.
    pub fn is_gone(&self) -> bool {
        matches!(
            self,
            Error::Lost(_) | Error::Full(_) | Error::Unknown { .. }
        )
    }
}

impl fmt::Display for Error {
    fn fmt(&self, to: &mut fmt::Formatter<'_>) -> fmt::Result {
        match self {
            Error::Invalid(text) => write!(to, "{text}"),
            Error::Lost(text) => write!(to, "no connection: {text}"),
            Error::Full(text) => {
                write!(to, "the server is full, or ends: {text}")
            }
            Error::Unknown { text, .. } => write!(to, "a change is undecided: {text}"),
            Error::Busy => write!(to, "the server was busy, or the words kept changing"),
            Error::Fault => write!(to, "the tenant's file has failed"),
            Error::Worn => write!(to, "a number of the server has come to its end"),
            Error::Refused { line, number } => write!(to, "{line}: refused, {number}"),
            Error::Moved(address) => {
                write!(to, "something else has moved the count at {address}")
            }
        }
    }
}

impl std::error::Error for Error {
    fn source(&self) -> Option<&(dyn std::error::Error + 'static)> {
        match self {
            Error::Unknown {
                cause: Some(cause), ..
            } => Some(cause.as_ref()),
            _ => None,
        }
    }
}
