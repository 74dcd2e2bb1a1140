// What users see of the client. README.md is its first page. Used by: programs. What is added here is added to each client.
#![doc = include_str!("../README.md")]
#![forbid(unsafe_code)]
#![deny(missing_docs)]

mod client;
mod counted;
mod error;
mod link;
mod protocol;
mod session;

pub use client::{Administrator, Client};
pub use counted::Counted;
pub use error::Error;
pub use link::Stream;
pub use protocol::{Entry, Miss, Outcome, Report, TenantReport, MAX_ENTRIES, MAX_VALUE, MAX_WORDS};
pub use session::{Options, MAX_RECONNECTS, MAX_TIME};

#[cfg(test)]
mod stream_tests;

#[cfg(test)]
mod tests {
    use super::{Administrator, Client, Counted, Error};

    #[test]
    fn clients_can_be_sent_to_other_threads() {
        fn sent<T: Send>() {}
        sent::<Client>();
        sent::<Administrator>();
        sent::<Counted>();
        sent::<Error>();
    }
}
