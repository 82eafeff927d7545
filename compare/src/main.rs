//! The independent program: it is held against the proved calls, measures them, and writes stored cases.

mod archive;
mod bench;
mod bits;
mod brute;
mod calls;
mod compare;
mod crash;
mod damage;
mod dice;
mod edge;
mod gate;
mod haul;
mod make;
mod network;
mod plain;
mod plan;
mod rivals;
mod sheet;
mod show;
mod stack;
mod stored;
mod table;
mod text;
mod trial;

use calls::{Call, ALL};

const USAGE: &str = "\
compare compare [--seconds N] [--seed N] [--round N] [--calls read,write,plan,sheet,gate]
        holds the archive against the rules of document 01 and stops at the first difference
compare again FILE
        runs the case of a difference file once more
compare bench [--row-ms N]
        measures the archive against plain Rust and against other algorithms
compare haul
        what the program `haul` prints for standard input, by the rules
compare haul-compare PROGRAM [--seconds N] [--seed N]
        holds a built `haul` against the rules
compare stack
        measures the stack that each call uses
compare stored FOLDER
        writes read.cases, write.cases, plan.cases, sheet.cases and gate.cases
compare stored-check FOLDER
        holds such files against the rules, and against the archive where it has the call
compare net TEXT FILE
        writes the network bytes of a text
compare route TEXT FROM TO EARLIEST LATEST
        prints the plan by the rules, with names
compare ask TEXT FROM TO EARLIEST LATEST FILE
        writes a query and the network as the program `haul` reads them";

fn main() {
    let words: Vec<String> = std::env::args().skip(1).collect();
    let status = match words.first().map(String::as_str) {
        Some("compare") => compare::run(&wish(&words[1..])),
        Some("bench") => bench::run(number(&words[1..], "--row-ms").unwrap_or(700) as f64 / 1e3),
        Some("haul") if words.len() == 1 => haul::run(),
        Some("haul-compare") if words.len() >= 2 => {
            let wish = wish(&words[2..]);
            haul::compare(&words[1], wish.seconds, wish.seed)
        }
        Some("stack") => stack::run(),
        Some("stored") if words.len() == 2 => stored::make_files(&words[1]),
        Some("stored-check") if words.len() == 2 => stored::check_files(&words[1]),
        Some("net") if words.len() == 3 => text::make(&words[1], &words[2]),
        Some("route") if words.len() == 6 => text::route(&words[1], &words[2..]),
        Some("ask") if words.len() == 7 => text::ask(&words[1], &words[2..6], &words[6]),
        Some("again") if words.len() == 2 => again(&words[1]),
        _ => {
            eprintln!("{USAGE}");
            2
        }
    };
    std::process::exit(status);
}

/// The value of `--name`, if it is given.
fn option<'a>(words: &'a [String], name: &str) -> Option<&'a str> {
    let at = words.iter().position(|word| word == name)?;
    words.get(at + 1).map(String::as_str)
}

fn number(words: &[String], name: &str) -> Option<u64> {
    option(words, name).map(|word| word.parse().unwrap_or_else(|_| panic!("{name} wants a number")))
}

fn wish(words: &[String]) -> compare::Wish {
    compare::Wish {
        seconds: number(words, "--seconds").unwrap_or(20),
        seed: number(words, "--seed").unwrap_or(1),
        round: number(words, "--round"),
        calls: calls_named(option(words, "--calls")),
    }
}

fn calls_named(names: Option<&str>) -> Vec<Call> {
    match names {
        None => ALL.to_vec(),
        Some(names) => ALL.into_iter().filter(|c| names.split(',').any(|n| n == c.name())).collect(),
    }
}

fn again(path: &str) -> i32 {
    let text = std::fs::read_to_string(path).expect("a difference file");
    let case = show::parse(&text);
    if !archive::has(case.call()) {
        println!("the archive has no haul_{} yet", case.call().name());
        return 2;
    }
    match compare::again(&case) {
        Ok(right) => {
            println!("no difference: number {}, length {}", right.number, right.length);
            0
        }
        Err(said) => {
            println!("{}", show::shortened(&said));
            1
        }
    }
}
