//! Networks as text with names, for people. README.md has the format.

use crate::network::{self, Band, Leg, Network, LAST_MINUTE, MOST_BANDS, MOST_LEGS, MOST_PLACES, MOST_TOLL};
use crate::plan::{arrival, arrival_of, cost, Query};
use crate::table;
use std::collections::HashMap;

/// A network and the names of its places.
pub struct Named {
    pub net: Network,
    pub names: Vec<String>,
}

/// Minutes, as a number or as hours and minutes: 90 or 1:30.
fn minute(word: &str) -> Result<u32, String> {
    let value = match word.split_once(':') {
        None => word.parse().ok(),
        Some((hours, minutes)) => match (hours.parse::<u32>(), minutes.parse::<u32>()) {
            (Ok(h), Ok(m)) if m < 60 => h.checked_mul(60).and_then(|h| h.checked_add(m)),
            _ => None,
        },
    };
    value.filter(|&m| m <= LAST_MINUTE).ok_or(format!("`{word}` is no minute from 0 to {LAST_MINUTE}"))
}

fn toll(word: &str) -> Result<u32, String> {
    let value: Option<u32> = word.parse().ok();
    value.filter(|&t| t <= MOST_TOLL).ok_or(format!("`{word}` is no toll from 0 to {MOST_TOLL} cents"))
}

/// Pairs of a start and a toll.
fn bands(words: &[&str]) -> Result<Vec<Band>, String> {
    if words.is_empty() || !words.len().is_multiple_of(2) || words.len() > 2 * MOST_BANDS as usize {
        return Err(format!("1 to {MOST_BANDS} pairs of a start and a toll are wanted"));
    }
    let mut out: Vec<Band> = Vec::new();
    for pair in words.chunks(2) {
        let band = Band { start: minute(pair[0])?, toll: toll(pair[1])? };
        let in_order = out.last().map_or(band.start == 0, |last| last.start < band.start);
        if !in_order {
            return Err("the first band starts at 0 and starts rise".into());
        }
        out.push(band);
    }
    Ok(out)
}

#[derive(Default)]
struct Reader {
    names: Vec<String>,
    tariffs: HashMap<String, Vec<Band>>,
    legs: Vec<Leg>,
}

impl Reader {
    fn place(&self, name: &str) -> Result<usize, String> {
        self.names.iter().position(|n| n == name).ok_or(format!("no place `{name}`"))
    }

    /// `FROM TO MINUTES`, then the name of a tariff or the bands themselves.
    fn leg(&self, words: &[&str]) -> Result<Leg, String> {
        let [from, to, time, rest @ ..] = words else {
            return Err("a leg has a from-place, a to-place, minutes and a tariff".into());
        };
        let bands = match rest {
            [name] => self.tariffs.get(*name).cloned().ok_or(format!("no tariff `{name}`"))?,
            _ => bands(rest)?,
        };
        Ok(Leg { from: self.place(from)?, to: self.place(to)?, time: minute(time)?, bands })
    }

    fn line(&mut self, words: &[&str]) -> Result<(), String> {
        match words {
            ["place", name] => {
                if self.names.iter().any(|n| n == name) {
                    return Err(format!("place `{name}` twice"));
                }
                self.names.push(name.to_string());
            }
            ["tariff", name, rest @ ..] => {
                self.tariffs.insert(name.to_string(), bands(rest)?);
            }
            ["leg", rest @ ..] => self.legs.push(self.leg(rest)?),
            ["road", rest @ ..] => {
                let there = self.leg(rest)?;
                let back = Leg { from: there.to, to: there.from, ..there.clone() };
                self.legs.extend([there, back]);
            }
            _ => return Err("a line begins with place, tariff, leg or road".into()),
        }
        Ok(())
    }
}

pub fn parse(text: &str) -> Result<Named, String> {
    let mut reader = Reader::default();
    for (k, line) in text.lines().enumerate() {
        let words: Vec<&str> = line.split('#').next().unwrap().split_whitespace().collect();
        if !words.is_empty() {
            reader.line(&words).map_err(|said| format!("line {}: {said}", k + 1))?;
        }
    }
    let Reader { names, legs, .. } = reader;
    if names.is_empty() || names.len() > MOST_PLACES as usize || legs.len() > MOST_LEGS as usize {
        return Err(format!("a network has 1 to {MOST_PLACES} places and at most {MOST_LEGS} legs"));
    }
    Ok(Named { net: Network { places: names.len(), legs }, names })
}

fn load(path: &str) -> Named {
    let text = std::fs::read_to_string(path).unwrap_or_else(|error| stop(&format!("{path}: {error}")));
    parse(&text).unwrap_or_else(|said| stop(&format!("{path}: {said}")))
}

fn stop(said: &str) -> ! {
    eprintln!("{said}");
    std::process::exit(2);
}

/// `net TEXT FILE`: writes the bytes of the network.
pub fn make(text: &str, file: &str) -> i32 {
    let named = load(text);
    let bytes = network::file_of(&named.net);
    assert_eq!(network::read(&bytes).as_ref(), Ok(&named.net));
    std::fs::write(file, &bytes).unwrap_or_else(|error| stop(&format!("{file}: {error}")));
    println!("{} places, {} legs, {} bytes", named.net.places, named.net.legs.len(), bytes.len());
    0
}

fn query(named: &Named, words: &[String]) -> Query {
    let place = |name: &str| match named.names.iter().position(|n| n == name) {
        Some(number) => number as u32,
        None => stop(&format!("no place `{name}`")),
    };
    let time = |word: &str| minute(word).unwrap_or_else(|said| stop(&said));
    Query { start: place(&words[0]), end: place(&words[1]), earliest: time(&words[2]), latest: time(&words[3]) }
}

/// `ask TEXT FROM TO EARLIEST LATEST FILE`: writes what the program `haul` reads.
pub fn ask(text: &str, words: &[String], file: &str) -> i32 {
    let named = load(text);
    let q = query(&named, words);
    let mut bytes = crate::bits::pack(&[(6, q.start), (6, q.end), (12, q.earliest), (12, q.latest), (4, 0)]);
    bytes.extend(network::file_of(&named.net));
    std::fs::write(file, &bytes).unwrap_or_else(|error| stop(&format!("{file}: {error}")));
    println!("{} bytes: start {}, end {}, earliest {}, latest {}", bytes.len(), q.start, q.end, q.earliest, q.latest);
    0
}

fn clock(minute: u32) -> String {
    format!("{}:{:02}", minute / 60, minute % 60)
}

/// `route TEXT FROM TO EARLIEST LATEST`: prints the plan with names, by the rules.
pub fn route(text: &str, words: &[String]) -> i32 {
    let named = load(text);
    let q = query(&named, words);
    if q.earliest > q.latest {
        stop("earliest is after latest");
    }
    let table = table::fill(&named.net, &q);
    let Some(plan) = table::named_plan(&named.net, &q, &table) else {
        println!("no feasible plan");
        return 0;
    };
    println!("cost {} cents, arrive {}", cost(&named.net, &plan), clock(arrival(&named.net, &q, &plan)));
    let mut since = q.earliest;
    for &ride in &plan {
        let leg = &named.net.legs[ride.leg];
        let (from, to) = (&named.names[leg.from], &named.names[leg.to]);
        println!(
            "leg {:>3}  leave {from} {} (wait {} min), toll {}, arrive {to} {}",
            ride.leg,
            clock(ride.departure),
            ride.departure - since,
            leg.toll_at(ride.departure),
            clock(arrival_of(&named.net, ride))
        );
        since = arrival_of(&named.net, ride);
    }
    0
}
