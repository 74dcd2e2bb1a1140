//! The protocol without a connection: which arguments are allowed, the line of each question, and what its reply means.
//! docs/PROTOCOL.md has the grammar. Used by: client.rs, counted.rs, link.rs, session.rs. A command or limit that the page gains is added
//! here, in the file of this name of each other client, and has cases in clients/cases.

use crate::error::Error;

/// The greatest value of a word.
pub const MAX_VALUE: u64 = (1 << 48) - 1;
/// The most words that a tenant can have; the greatest address is one less.
pub const MAX_WORDS: u16 = 4096;
/// The most words of one change, or of one `read`.
pub const MAX_ENTRIES: usize = 16;
/// The most bytes of the path of a local socket.
const MAX_PATH: usize = 107;
/// The most bytes of a line from the server, without its line feed.
pub(crate) const MAX_REPLY: usize = 35;
/// How many lines are sent before their replies are read: each socket has room for so many lines of `GET`.
pub(crate) const LINES_AT_ONCE: usize = 512;
const MAX_TENANTS: usize = 16;
/// The last line of a report alone has at most so many bytes.
const REPORT_END: usize = 8;
const MAX_DIGITS: usize = 15;

/// A part of a change.
#[derive(Clone, Copy, Debug, PartialEq, Eq)]
pub struct Entry {
    /// The word's, from 0 to the tenant's words - 1.
    pub address: u16,
    /// The value that the word must have, from 0 to [`MAX_VALUE`].
    pub expected: u64,
    /// The new value, in the same range. It may be equal to the one expected, to compare only.
    pub value: u64,
}

impl Entry {
    /// An entry of these.
    pub fn new(address: u16, expected: u64, value: u64) -> Entry {
        Entry {
            address,
            expected,
            value,
        }
    }
}

/// A word that had another value than the one expected. If several differ it is any of these.
#[derive(Clone, Copy, Debug, PartialEq, Eq)]
pub struct Miss {
    /// The word's.
    pub address: u16,
    /// What it had.
    pub value: u64,
}

/// How a change ended.
#[derive(Clone, Copy, Debug, PartialEq, Eq)]
#[must_use]
pub enum Outcome {
    /// All words had their expected values, and the new ones are written, durably.
    Made,
    /// Nothing was changed. A `Counted` tells no word if a reply was lost: perhaps none differs.
    NotMade(Option<Miss>),
}

impl Outcome {
    /// Whether the change was made.
    pub fn made(&self) -> bool {
        *self == Outcome::Made
    }
}

/// How one tenant is.
#[derive(Clone, Debug, PartialEq, Eq)]
pub struct TenantReport {
    /// 1 to 16 signs.
    pub name: String,
    /// How many words it has, 1 to [`MAX_WORDS`].
    pub words: u16,
    /// How many changes it may have under way at a time, 1 to 64.
    pub quota: u16,
    /// The greatest quota that a start of the server may give it; 0 if its file didn't open or doesn't fit its line.
    pub places: u16,
    /// How many changes are under way.
    pub under_way: u16,
    /// Whether it is served. If not, its calls end as [`Error::Fault`].
    pub up: bool,
}

/// How all tenants are, in the order of the server's tenants file. Each number is of its own moment.
#[derive(Clone, Debug, PartialEq, Eq)]
pub struct Report {
    /// One to sixteen.
    pub tenants: Vec<TenantReport>,
    /// How many more changes the server has room for.
    pub free: u64,
}

/// Where a server listens.
#[derive(Clone, Debug)]
pub(crate) enum Place {
    Port(String, u16),
    LocalSocket(String),
}

/// Where a server listens, from `HOST:PORT`, `[HOST]:PORT` or `unix:PATH`.
pub(crate) fn place_of(server: &str) -> Result<Place, Error> {
    if let Some(path) = server.strip_prefix("unix:") {
        if path.is_empty() || path.len() > MAX_PATH || path.contains('\0') {
            return Err(Error::Invalid(format!(
                "the path of a local socket has 1 to {MAX_PATH} bytes, and none is 0"
            )));
        }
        return Ok(Place::LocalSocket(path.to_string()));
    }
    port_of(server).ok_or_else(|| {
        Error::Invalid(
            "a server listens at HOST:PORT, with a port from 1 to 65535, at [HOST]:PORT for IPv6, or at unix:PATH"
                .to_string(),
        )
    })
}

fn port_of(server: &str) -> Option<Place> {
    let (host, port) = server.rsplit_once(':')?;
    if port.len() > 5 || !port.bytes().all(|it| it.is_ascii_digit()) {
        return None;
    }
    let port = port.parse::<u16>().ok().filter(|it| *it > 0)?;
    let bracketed = host
        .strip_prefix('[')
        .and_then(|rest| rest.strip_suffix(']'));
    let name = bracketed.unwrap_or(host);
    let is_wrong = |it: char| {
        it == '['
            || it == ']'
            || it.is_whitespace()
            || it == '\0'
            || (it == ':' && bracketed.is_none())
    };
    if name.is_empty() || name.chars().any(is_wrong) {
        return None;
    }
    Some(Place::Port(name.to_string(), port))
}

/// Whether a tenant can have this name.
fn is_tenant(name: &str) -> bool {
    name.len() <= 16
        && name.starts_with(|it: char| it.is_ascii_lowercase())
        && name
            .bytes()
            .all(|it| it.is_ascii_lowercase() || it.is_ascii_digit() || it == b'-')
}

/// These entries, sorted by address, if a tenant of so many words can be asked for them in one change.
pub(crate) fn checked_entries(entries: &[Entry], words: u16) -> Result<Vec<Entry>, Error> {
    let mut sorted = entries.to_vec();
    sorted.sort_by_key(|entry| entry.address);
    let is_in_range =
        |it: &Entry| it.address < words && it.expected <= MAX_VALUE && it.value <= MAX_VALUE;
    if sorted.is_empty() || sorted.len() > MAX_ENTRIES {
        return Err(Error::Invalid(format!(
            "a change has one to {MAX_ENTRIES} entries"
        )));
    }
    if !sorted.iter().all(is_in_range) {
        return Err(Error::Invalid(format!(
            "the tenant has the addresses 0 to {}, and a value is from 0 to {MAX_VALUE}",
            words.saturating_sub(1)
        )));
    }
    if sorted
        .windows(2)
        .any(|pair| pair[0].address == pair[1].address)
    {
        return Err(Error::Invalid("two entries have the same address".into()));
    }
    Ok(sorted)
}

/// What is told if the connection ends before a reply.
#[derive(Clone, Copy, PartialEq, Eq)]
pub(crate) enum Gone {
    Lost,
    Unknown,
}

/// The lines of a reply: one, or several of a report.
pub(crate) type Reply = Vec<String>;
type Meaning<'a, T> = Box<dyn Fn(&[Reply]) -> Option<T> + 'a>;

/// Lines that are sent together, and what their replies mean: None if no server says so.
pub(crate) struct Question<'a, T> {
    pub lines: Vec<String>,
    pub gone: Gone,
    pub is_report: bool,
    pub meaning: Meaning<'a, T>,
}

/// A question of one line that changes nothing.
fn question<'a, T>(line: String, meaning: impl Fn(&str) -> Option<T> + 'a) -> Question<'a, T> {
    Question {
        lines: vec![line],
        gone: Gone::Lost,
        is_report: false,
        meaning: Box::new(move |replies| meaning(&replies[0][0])),
    }
}

/// Whom a session speaks for.
pub(crate) enum Greeting {
    Tenant(String),
    Administrator,
}

impl Greeting {
    /// That of a tenant of this name.
    pub(crate) fn tenant(name: &str) -> Result<Greeting, Error> {
        if !is_tenant(name) {
            return Err(Error::Invalid(
                "a tenant has a name of a to z, then up to 15 of a to z, 0 to 9 and \"-\"".into(),
            ));
        }
        Ok(Greeting::Tenant(name.to_string()))
    }

    /// The answer is the number of words: 0 of the administrator.
    pub(crate) fn question(&self) -> Question<'static, u16> {
        match self {
            Greeting::Tenant(name) => question(format!("TENANT {name}"), words_of),
            Greeting::Administrator => {
                question("ADMIN".into(), |reply| (reply == "OK ADMIN").then_some(0))
            }
        }
    }
}

/// The values of the words at these addresses, each of its own moment.
pub(crate) fn get(addresses: &[u16]) -> Question<'static, Vec<u64>> {
    Question {
        lines: addresses.iter().map(|it| format!("GET {it}")).collect(),
        gone: Gone::Lost,
        is_report: false,
        meaning: Box::new(|replies| replies.iter().map(|it| value_of(&it[0])).collect()),
    }
}

/// A change of these checked entries. The answer is the word that had another value, if one had.
pub(crate) fn cas(entries: &[Entry], gone: Gone) -> Question<'_, Option<Miss>> {
    let parts = entries
        .iter()
        .map(|it| format!(" {}:{}:{}", it.address, it.expected, it.value));
    Question {
        gone,
        ..question(format!("CAS{}", parts.collect::<String>()), move |reply| {
            miss_of(reply, entries)
        })
    }
}

/// How all tenants are.
pub(crate) fn report() -> Question<'static, Report> {
    Question {
        lines: vec!["REPORT".into()],
        gone: Gone::Lost,
        is_report: true,
        meaning: Box::new(|replies| report_of(&replies[0])),
    }
}

/// What any line may be answered.
pub(crate) fn failure_of(line: &str, reply: &str) -> Option<Error> {
    match reply {
        "BUSY" => Some(Error::Busy),
        "FAULT" => Some(Error::Fault),
        "WORN" => Some(Error::Worn),
        _ => {
            let number = number_of(reply.strip_prefix("ERR ")?, 99)?;
            (number > 0).then(|| Error::Refused {
                line: line.to_string(),
                number: number as u8,
            })
        }
    }
}

/// Whether a reply ends with this line.
pub(crate) fn is_end(line: &str, is_report: bool) -> bool {
    !is_report || line.len() <= REPORT_END
}

/// Whether a report of so many lines, which hasn't ended, is too long.
pub(crate) fn is_too_long(lines: usize) -> bool {
    lines > MAX_TENANTS
}

/// A number of up to 15 digits, without a zero before others, up to `most`.
fn number_of(text: &str, most: u64) -> Option<u64> {
    let is_number = !text.is_empty()
        && text.len() <= MAX_DIGITS
        && text.bytes().all(|it| it.is_ascii_digit())
        && (text.len() == 1 || !text.starts_with('0'));
    is_number
        .then(|| text.parse::<u64>().ok())
        .flatten()
        .filter(|it| *it <= most)
}

fn words_of(reply: &str) -> Option<u16> {
    let words = number_of(reply.strip_prefix("OK ")?, u64::from(MAX_WORDS))?;
    (words > 0).then_some(words as u16)
}

fn value_of(reply: &str) -> Option<u64> {
    number_of(reply.strip_prefix("VAL ")?, MAX_VALUE)
}

fn miss_of(reply: &str, entries: &[Entry]) -> Option<Option<Miss>> {
    if reply == "YES" {
        return Some(None);
    }
    let (address, value) = reply.strip_prefix("NO ")?.split_once(' ')?;
    let address = number_of(address, u64::from(MAX_WORDS))? as u16;
    let value = number_of(value, MAX_VALUE)?;
    let entry = entries.iter().find(|entry| entry.address == address)?;
    (entry.expected != value).then_some(Some(Miss { address, value }))
}

fn report_of(lines: &[String]) -> Option<Report> {
    let (last, tenants) = lines.split_last()?;
    let free = number_of(last.strip_prefix("free ")?, u64::MAX)?;
    let tenants: Option<Vec<TenantReport>> = tenants.iter().map(|it| tenant_of(it)).collect();
    Some(Report {
        tenants: tenants.filter(|it| !it.is_empty())?,
        free,
    })
}

/// A tenant's line of a report, in its columns.
fn tenant_of(line: &str) -> Option<TenantReport> {
    let parts: Vec<&str> = line.split_ascii_whitespace().collect();
    if parts.len() != 6 || !is_tenant(parts[0]) {
        return None;
    }
    let number = |at: usize| number_of(parts[at], 9999).map(|it| it as u16);
    let tenant = TenantReport {
        name: parts[0].to_string(),
        words: number(1)?,
        quota: number(2)?,
        places: number(3)?,
        under_way: number(4)?,
        up: parts[5] == "up",
    };
    let columns = format!(
        "{:16} {:4} {:2} {:2} {:2} {}",
        tenant.name,
        tenant.words,
        tenant.quota,
        tenant.places,
        tenant.under_way,
        if tenant.up { "up" } else { "down" }
    );
    (columns == line).then_some(tenant)
}
