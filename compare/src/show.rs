//! Cases as text: to print, to keep in a file, to run again.

use crate::calls::{Case, Outcome};
use crate::plan::Query;

fn hex(bytes: &[u8]) -> String {
    bytes.iter().map(|b| format!("{b:02x}")).collect()
}

fn hex_numbers(numbers: &[u32]) -> String {
    numbers.iter().map(|n| format!("{n:08x}")).collect()
}

/// One line for each thing that is handed to the call, in hex; numbers have eight digits each.
pub fn case(case: &Case) -> String {
    let name = case.call().name();
    match case {
        Case::Read { net, list } => format!("call {name}\nnet {}\nlist {}\n", hex(net), hex_numbers(list)),
        Case::Write { list, out } => format!("call {name}\nlist {}\nout {}\n", hex_numbers(list), hex(out)),
        Case::Plan { net, query, table, out } | Case::Sheet { net, query, table, out } => format!(
            "call {name}\nnet {}\nquery {} {} {} {}\ntable {}\nout {}\n",
            hex(net),
            query.start,
            query.end,
            query.earliest,
            query.latest,
            hex_numbers(table),
            hex(out)
        ),
        Case::Gate { net, plan, sheet } => {
            format!("call {name}\nnet {}\nplan {}\nsheet {}\n", hex(net), hex(plan), hex(sheet))
        }
    }
}

/// The same text with long lines cut.
pub fn shortened(text: &str) -> String {
    let cut = |line: &str| match line.get(..1_200) {
        Some(front) if line.len() > 1_200 => format!("{front}... ({} characters)", line.len()),
        _ => line.to_string(),
    };
    text.lines().map(cut).collect::<Vec<_>>().join("\n")
}

/// Where two outcomes differ.
pub fn difference(right: &Outcome, got: &Outcome) -> String {
    let mut said = format!(
        "by the rules: number {}, length {}; the archive: number {}, length {}",
        right.number, right.length, got.number, got.length
    );
    if let Some(at) = (0..right.numbers.len()).find(|&k| right.numbers[k] != got.numbers[k]) {
        said += &format!("\nnumber {at} of the list or table: {} and {}", right.numbers[at], got.numbers[at]);
    }
    if let Some(at) = (0..right.out.len()).find(|&k| right.out[k] != got.out[k]) {
        said += &format!("\nbyte {at} of the output: {:02x} and {:02x}", right.out[at], got.out[at]);
    }
    said
}

fn bytes_of(hex: &str) -> Vec<u8> {
    (0..hex.len() / 2).map(|k| u8::from_str_radix(&hex[2 * k..2 * k + 2], 16).expect("hex")).collect()
}

fn numbers_of(hex: &str) -> Vec<u32> {
    (0..hex.len() / 8).map(|k| u32::from_str_radix(&hex[8 * k..8 * k + 8], 16).expect("hex")).collect()
}

fn query_of(words: &str) -> Query {
    let n: Vec<u32> = words.split_whitespace().map(|w| w.parse().expect("a number")).collect();
    Query { start: n[0], end: n[1], earliest: n[2], latest: n[3] }
}

/// A case from its text.
pub fn parse(text: &str) -> Case {
    let value = |key: &str| {
        text.lines()
            .find_map(|line| line.strip_prefix(key).filter(|rest| rest.is_empty() || rest.starts_with(' ')))
            .unwrap_or_else(|| panic!("no line `{key}`"))
            .trim()
    };
    let query = || query_of(value("query"));
    match value("call") {
        "read" => Case::Read { net: bytes_of(value("net")), list: numbers_of(value("list")) },
        "write" => Case::Write { list: numbers_of(value("list")), out: bytes_of(value("out")) },
        "plan" => Case::Plan {
            net: bytes_of(value("net")),
            query: query(),
            table: numbers_of(value("table")),
            out: bytes_of(value("out")),
        },
        "sheet" => Case::Sheet {
            net: bytes_of(value("net")),
            query: query(),
            table: numbers_of(value("table")),
            out: bytes_of(value("out")),
        },
        "gate" => {
            Case::Gate { net: bytes_of(value("net")), plan: bytes_of(value("plan")), sheet: bytes_of(value("sheet")) }
        }
        other => panic!("no call `{other}`"),
    }
}
