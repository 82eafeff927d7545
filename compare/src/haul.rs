//! The program `haul`, by the rules, and its comparison with a built one.

use crate::bits::BitReader;
use crate::compare::bad_network;
use crate::damage;
use crate::dice::Dice;
use crate::make;
use crate::network::{self, Network, LAST_MINUTE};
use crate::plan::{arrival, arrival_of, cost, Query};
use crate::table;
use std::io::{Read, Write};
use std::process::{Command, Stdio};
use std::time::{Duration, Instant};

const CELLS: usize = 16_384;

fn only(answer: u32) -> String {
    format!("answer {answer}\n")
}

/// What `haul` prints for this input.
pub fn by_the_rules(input: &[u8]) -> String {
    if input.len() < 5 {
        return only(1);
    }
    let (query, net) = input.split_at(5);
    let mut fields = BitReader::new(query);
    let mut next = |width| fields.take(width).unwrap();
    let mut query = Query { start: next(6), end: next(6), earliest: next(12), latest: next(12) };
    if next(4) != 0 {
        return only(5);
    }
    if query.latest == 4_095 {
        query.latest = 1_439;
    }
    match network::read(net) {
        Ok(net) => told(&net, &query),
        Err(fault) => only(fault),
    }
}

fn told(net: &Network, query: &Query) -> String {
    if let Some(fault) = query.fault(net.places) {
        return only(fault);
    }
    if net.places * query.window() > CELLS {
        return only(8);
    }
    let table = table::fill(net, query);
    let Some(plan) = table::named_plan(net, query, &table) else { return only(10) };
    let mut out = only(0);
    out += &format!("cost {}\narrive {}\n", cost(net, &plan), arrival(net, query, &plan));
    let mut since = query.earliest;
    for ride in plan {
        out += &format!("leg {} leave {} wait {}\n", ride.leg, ride.departure, ride.departure - since);
        since = arrival_of(net, ride);
    }
    out
}

/// `haul`: from standard input to standard output, by the rules.
pub fn run() -> i32 {
    let mut input = Vec::new();
    std::io::stdin().read_to_end(&mut input).expect("standard input");
    print!("{}", by_the_rules(&input));
    0
}

fn printed(program: &str, input: &[u8]) -> String {
    let mut child = Command::new(program)
        .stdin(Stdio::piped())
        .stdout(Stdio::piped())
        .spawn()
        .unwrap_or_else(|error| panic!("{program}: {error}"));
    let mut stdin = child.stdin.take().unwrap();
    // A program may stop reading once it knows its answer.
    let _ = stdin.write_all(input);
    drop(stdin);
    let out = child.wait_with_output().expect("the program ends");
    let mut text = String::from_utf8_lossy(&out.stdout).into_owned();
    if !out.status.success() {
        text += &format!("({})\n", out.status);
    }
    text
}

fn head(query: &Query, fill: u32) -> Vec<u8> {
    let fields = [(6, query.start), (6, query.end), (12, query.earliest), (12, query.latest), (4, fill)];
    crate::bits::pack(&fields)
}

fn input(dice: &mut Dice) -> Vec<u8> {
    let shape = match dice.below(10) {
        0 => make::middle(dice),
        1..=5 => make::small(dice),
        _ => make::tiny(dice),
    };
    let net = if dice.once_in(60) { make::largest(dice) } else { make::network(dice, &shape) };
    let mut query = make::query(dice, &net, shape.from, shape.window);
    match dice.below(16) {
        0 => query.latest = 4_095,
        1 => query.earliest = 4_095,
        2 => query.latest = dice.between(LAST_MINUTE - 1, 4_095),
        3 => query.end = dice.between(0, 63),
        4 => query.start = dice.between(0, 63),
        5 => std::mem::swap(&mut query.earliest, &mut query.latest),
        6 => (query.earliest, query.latest) = (0, LAST_MINUTE),
        _ => {}
    }
    let fill = if dice.once_in(20) { dice.between(1, 15) } else { 0 };
    let file = if dice.once_in(6) { bad_network(dice, &net) } else { network::file_of(&net) };
    let mut all = head(&query, fill);
    all.extend(file);
    match dice.below(30) {
        0 => all.truncate(dice.below(8).min(all.len())),
        1 => all.extend(make::bytes(dice, 20_000)),
        2 => all.extend(vec![0; 70_000]),
        3 => all = damage::any(dice, &all),
        _ => {}
    }
    all
}

fn answer_of(text: &str) -> usize {
    text.lines().next().and_then(|line| line.strip_prefix("answer ")).and_then(|n| n.parse().ok()).unwrap_or(15)
}

/// Holds a built `haul` against the rules.
pub fn compare(program: &str, seconds: u64, seed: u64) -> i32 {
    let began = Instant::now();
    let mut dice = Dice::new(seed);
    let mut counts = [0u64; 16];
    let mut fixed: Vec<Vec<u8>> = (0..6).map(|count| vec![0; count]).collect();
    let mut trial = vec![0x00, 0x20, 0x00, 0x05, 0xA0];
    trial.extend(network::file_of(&crate::trial::network()));
    fixed.push(trial);
    while began.elapsed() < Duration::from_secs(seconds) {
        let input = fixed.pop().unwrap_or_else(|| input(&mut dice));
        let right = by_the_rules(&input);
        let got = printed(program, &input);
        counts[answer_of(&right)] += 1;
        if got != right {
            std::fs::write("difference.bin", &input).expect("the input can be kept");
            println!("DIFFERENCE; the input is kept in difference.bin\nby the rules:\n{right}the program:\n{got}");
            return 1;
        }
    }
    let each: Vec<String> = (0..11).map(|n| format!("{n}: {}", counts[n])).collect();
    println!("{} inputs, no difference; answer: inputs  {}", counts.iter().sum::<u64>(), each.join(", "));
    0
}
