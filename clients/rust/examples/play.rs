//! The client in Rust, as the program of clients/cases/README.md: reads calls, one a line, and tells what each tells.
//!
//! Used by: scripts/check-clients. A further call or failure of that page is a case here, and in play of each language. Status 0.

use std::io::{self, BufRead, Write};
use std::time::Duration;

use mondlexi::{Administrator, Client, Counted, Entry, Error, Options, Outcome, Report};

/// The clients and the count of the last calls that made one.
#[derive(Default)]
struct Player {
    client: Option<Client>,
    administrator: Option<Administrator>,
    counted: Option<Counted>,
}

type Told = Result<String, Error>;

fn failure(error: &Error) -> String {
    match error {
        Error::Invalid(_) => "invalid".into(),
        Error::Lost(_) => "lost".into(),
        Error::Full(_) => "full".into(),
        Error::Unknown { cause: None, .. } => "unknown".into(),
        Error::Unknown {
            cause: Some(cause), ..
        } => format!("unknown from {}", failure(cause)),
        Error::Busy => "busy".into(),
        Error::Fault => "fault".into(),
        Error::Worn => "worn".into(),
        Error::Refused { number, .. } => format!("refused {number}"),
        Error::Moved(_) => "moved".into(),
        other => format!("{other:?}"),
    }
}

fn milliseconds(text: &str) -> Duration {
    Duration::from_millis(text.parse().expect("a number"))
}

fn options_of(words: &[&str]) -> Options {
    let mut options = Options::default();
    for (name, value) in words.iter().filter_map(|word| word.split_once('=')) {
        match name {
            "timeout" => options.timeout = milliseconds(value),
            "patience" => options.patience = milliseconds(value),
            "within" => options.within = milliseconds(value),
            _ => options.reconnects = value.parse().expect("a number"),
        }
    }
    options
}

fn addresses_of(words: &[&str]) -> Vec<u16> {
    let address = |word: &&str| word.parse().expect("an address");
    words.iter().map(address).collect()
}

fn entries_of(words: &[&str]) -> Vec<Entry> {
    let entry = |word: &&str| {
        let parts: Vec<u64> = word.split(':').map(|it| it.parse().expect("u64")).collect();
        Entry::new(parts[0] as u16, parts[1], parts[2])
    };
    words.iter().map(entry).collect()
}

fn told_values(values: Vec<u64>) -> String {
    let text = |value: u64| format!(" {value}");
    format!("values{}", values.into_iter().map(text).collect::<String>())
}

fn told_outcome(outcome: Outcome) -> String {
    match outcome {
        Outcome::Made => "made".into(),
        Outcome::NotMade(None) => "not".into(),
        Outcome::NotMade(Some(miss)) => format!("not {} {}", miss.address, miss.value),
    }
}

fn told_report(report: Report) -> String {
    let mut text = String::new();
    for it in report.tenants {
        let state = if it.up { "up" } else { "down" };
        text += &format!(
            "tenant {} {} {} {} {} {state}; ",
            it.name, it.words, it.quota, it.places, it.under_way
        );
    }
    format!("{text}free {}", report.free)
}

impl Player {
    fn client(&mut self) -> &mut Client {
        self.client.as_mut().expect("a client")
    }

    fn connect(&mut self, words: &[&str]) -> Told {
        self.administrator = None;
        let client = Client::connect(words[0], words[1], options_of(&words[2..]))?;
        let told = format!("words {}", client.words());
        self.client = Some(client);
        Ok(told)
    }

    fn administer(&mut self, words: &[&str]) -> Told {
        self.client = None;
        self.administrator = Some(Administrator::connect(words[0], options_of(&words[1..]))?);
        Ok("connected".into())
    }

    fn reconnect(&mut self, words: &[&str]) -> Told {
        let within = milliseconds(words[0]);
        match self.administrator.as_mut() {
            Some(it) => it.reconnect(within)?,
            None => self.client().reconnect(within)?,
        }
        Ok("connected".into())
    }

    fn close(&mut self) -> Told {
        if let Some(it) = self.administrator.as_mut() {
            it.close();
        }
        if let Some(it) = self.client.as_mut() {
            it.close();
        }
        Ok("closed".into())
    }

    fn count(&mut self, words: &[&str]) -> Told {
        let wait = words.get(1).map_or("30000", |it| &it["wait=".len()..]);
        let address = words[0].parse().expect("an address");
        let counted = Counted::begin(self.client(), address, milliseconds(wait))?;
        self.counted = Some(counted);
        Ok("counted".into())
    }

    fn counted(&mut self) -> (&mut Counted, &mut Client) {
        let counted = self.counted.as_mut().expect("a count");
        (counted, self.client.as_mut().expect("a client"))
    }

    fn counted_cas(&mut self, words: &[&str]) -> Told {
        let (counted, client) = self.counted();
        counted.cas(client, &entries_of(words)).map(told_outcome)
    }

    fn settle(&mut self) -> Told {
        let (counted, client) = self.counted();
        let is_made = counted.settle(client)?;
        Ok(if is_made { "made" } else { "not" }.into())
    }

    fn report(&mut self) -> Told {
        let administrator = self.administrator.as_mut().expect("an administrator");
        administrator.report().map(told_report)
    }

    fn call(&mut self, words: &[&str]) -> Told {
        let rest = &words[1..];
        match words[0] {
            "client" => self.connect(rest),
            "administrator" => self.administer(rest),
            "get" => {
                let address = addresses_of(rest)[0];
                self.client().get(address).map(|it| told_values(vec![it]))
            }
            "get_many" => self.client().get_many(&addresses_of(rest)).map(told_values),
            "read" => self.client().read(&addresses_of(rest)).map(told_values),
            "stable" => self.client().stable(&addresses_of(rest)).map(told_values),
            "cas" => self.client().cas(&entries_of(rest)).map(told_outcome),
            "counted" => self.count(rest),
            "counted_cas" => self.counted_cas(rest),
            "settle" => self.settle(),
            "report" => self.report(),
            "reconnect" => self.reconnect(rest),
            "close" => self.close(),
            other => panic!("no call: {other}"),
        }
    }
}

fn main() -> io::Result<()> {
    let mut player = Player::default();
    for line in io::stdin().lock().lines() {
        let line = line?;
        let words: Vec<&str> = line.split_whitespace().collect();
        let told = player.call(&words).unwrap_or_else(|it| failure(&it));
        println!("{told}");
        io::stdout().flush()?;
    }
    Ok(())
}
