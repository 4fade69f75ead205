//! Does the work that its first argument names over the standard input, as often as the second says, and prints the shortest time in
//! nanoseconds of the thread's processor time, how many events or values there were, and the sum of what they hold.
use serde::de::{DeserializeSeed, Deserializer, Error, IgnoredAny, MapAccess, SeqAccess, Visitor};
use serde::{Deserialize, Serialize};
use serde_json::Value;
use std::fmt;
use std::hint::black_box;
use std::io::Read;

/// How many events were seen, and the sum of the whole numbers and of the texts' lengths in bytes.
#[derive(Default)]
struct Seen {
    count: u64,
    sum: u64,
}

impl Seen {
    fn add(&mut self, weight: u64) {
        self.count += 1;
        self.sum = self.sum.wrapping_add(weight);
    }
}

/// Passes a value and counts its events: each text is decoded and each number converted.
struct Walk<'s>(&'s mut Seen);

impl<'de> DeserializeSeed<'de> for Walk<'_> {
    type Value = ();

    fn deserialize<D: Deserializer<'de>>(self, deserializer: D) -> Result<(), D::Error> {
        deserializer.deserialize_any(self)
    }
}

impl<'de> Visitor<'de> for Walk<'_> {
    type Value = ();

    fn expecting(&self, f: &mut fmt::Formatter<'_>) -> fmt::Result {
        f.write_str("a value")
    }

    fn visit_unit<E: Error>(self) -> Result<(), E> {
        self.0.add(0);
        Ok(())
    }

    fn visit_bool<E: Error>(self, value: bool) -> Result<(), E> {
        self.0.add(u64::from(value));
        Ok(())
    }

    fn visit_u64<E: Error>(self, value: u64) -> Result<(), E> {
        self.0.add(value);
        Ok(())
    }

    fn visit_i64<E: Error>(self, value: i64) -> Result<(), E> {
        self.0.add(value as u64);
        Ok(())
    }

    fn visit_f64<E: Error>(self, value: f64) -> Result<(), E> {
        black_box(value);
        self.0.add(0);
        Ok(())
    }

    fn visit_str<E: Error>(self, value: &str) -> Result<(), E> {
        self.0.add(value.len() as u64);
        Ok(())
    }

    fn visit_seq<A: SeqAccess<'de>>(self, mut items: A) -> Result<(), A::Error> {
        self.0.add(0);
        while items.next_element_seed(Walk(self.0))?.is_some() {}
        self.0.add(0);
        Ok(())
    }

    fn visit_map<A: MapAccess<'de>>(self, mut members: A) -> Result<(), A::Error> {
        self.0.add(0);
        while members.next_key_seed(Walk(self.0))?.is_some() {
            members.next_value_seed(Walk(self.0))?;
        }
        self.0.add(0);
        Ok(())
    }
}

type Done = Result<Seen, serde_json::Error>;

fn events(input: &[u8]) -> Done {
    let mut seen = Seen::default();
    let mut deserializer = serde_json::Deserializer::from_slice(input);
    Walk(&mut seen).deserialize(&mut deserializer)?;
    deserializer.end()?;
    Ok(seen)
}

fn events_of_text(input: &str) -> Done {
    let mut seen = Seen::default();
    let mut deserializer = serde_json::Deserializer::from_str(input);
    Walk(&mut seen).deserialize(&mut deserializer)?;
    deserializer.end()?;
    Ok(seen)
}

fn skip(input: &[u8]) -> Done {
    serde_json::from_slice::<IgnoredAny>(input)?;
    Ok(Seen { count: 1, sum: 0 })
}

/// Reads a value and drops it.
fn tree(input: &[u8]) -> Done {
    black_box(serde_json::from_slice::<Value>(input)?);
    Ok(Seen { count: 1, sum: 0 })
}

fn text(value: &Value) -> Done {
    let text = black_box(serde_json::to_vec(value)?);
    Ok(Seen { count: 1, sum: text.len() as u64 })
}

/// A struct of ten fields, as this library's program has it.
#[derive(Deserialize, Serialize)]
struct Account {
    id: u64,
    name: String,
    email: String,
    active: bool,
    age: u8,
    score: i32,
    visits: u32,
    city: Option<String>,
    tags: Vec<String>,
    parent: Option<u64>,
}

/// Whom to write to of an account, by texts that stand in the input.
#[derive(Deserialize)]
#[allow(dead_code)]
struct Contact<'i> {
    id: u64,
    name: &'i str,
    email: &'i str,
}

/// The one member of a line that is wanted.
#[derive(Deserialize)]
struct Line {
    status: u64,
}

/// Reads a list of accounts and drops it.
fn typed(input: &[u8]) -> Done {
    black_box(serde_json::from_slice::<Vec<Account>>(input)?);
    Ok(Seen { count: 1, sum: 0 })
}

fn typed_lent(input: &[u8]) -> Done {
    black_box(serde_json::from_slice::<Vec<Contact>>(input)?);
    Ok(Seen { count: 1, sum: 0 })
}

/// Reads the status of each line.
fn log(input: &str) -> Done {
    let mut seen = Seen::default();
    for line in input.lines() {
        seen.add(serde_json::from_slice::<Line>(line.as_bytes())?.status);
    }
    Ok(seen)
}

fn typed_text(accounts: &[Account]) -> Done {
    let text = black_box(serde_json::to_vec(accounts)?);
    Ok(Seen { count: 1, sum: text.len() as u64 })
}

/// The processor time of this thread in nanoseconds.
fn now() -> u64 {
    let mut time = libc::timespec { tv_sec: 0, tv_nsec: 0 };
    // The call writes the structure that it is given, and nothing else.
    unsafe { libc::clock_gettime(libc::CLOCK_THREAD_CPUTIME_ID, &mut time) };
    time.tv_sec as u64 * 1_000_000_000 + time.tv_nsec as u64
}

fn best(rounds: u64, mut work: impl FnMut() -> Done) {
    let mut least = u64::MAX;
    let mut seen = Seen::default();
    for _ in 0..rounds {
        let start = now();
        seen = work().expect("the input is read");
        least = least.min(now() - start);
    }
    println!("{least} {} {}", seen.count, seen.sum);
}

fn main() {
    let arguments: Vec<String> = std::env::args().collect();
    let rounds = arguments[2].parse().expect("a number of rounds");
    let mut input = Vec::new();
    std::io::stdin().read_to_end(&mut input).expect("the input");
    let input = input.as_slice();
    match arguments[1].as_str() {
        "skip" => best(rounds, || skip(black_box(input))),
        "events" => best(rounds, || events(black_box(input))),
        "trusted" => {
            let input = std::str::from_utf8(input).expect("UTF-8");
            best(rounds, || events_of_text(black_box(input)));
        }
        "tree" => best(rounds, || tree(black_box(input))),
        "text" => {
            let value: Value = serde_json::from_slice(input).expect("a document");
            best(rounds, || text(black_box(&value)));
        }
        "typed" => best(rounds, || typed(black_box(input))),
        "typed-lent" => best(rounds, || typed_lent(black_box(input))),
        "log" => {
            let input = std::str::from_utf8(input).expect("UTF-8");
            best(rounds, || log(black_box(input)));
        }
        "typed-text" => {
            let accounts: Vec<Account> = serde_json::from_slice(input).expect("a list of accounts");
            best(rounds, || typed_text(black_box(&accounts)));
        }
        _ => std::process::exit(2),
    }
}
