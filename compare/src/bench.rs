//! One table: each row a ratio that is measured in the same run, on the same input.

use crate::archive;
use crate::calls::{Call, ALL};
use crate::dice::Dice;
use crate::make;
use crate::network::{self, Band, Leg, Network, LAST_MINUTE};
use crate::plain;
use crate::plan::Query;
use crate::rivals::{self, Search};
use std::hint::black_box;
use std::time::{Duration, Instant};

/// Median times of two works that take turns. A work of a few microseconds is done several times in a run.
fn measure(budget: Duration, mut clear: impl FnMut(), mut a: impl FnMut(), mut b: impl FnMut()) -> (f64, f64) {
    let (mut times_a, mut times_b) = (Vec::new(), Vec::new());
    timed(&mut a, 1);
    let once = timed(&mut a, 1).max(timed(&mut b, 1));
    let times = (20.0 / once).clamp(1.0, 1_000.0) as u32;
    let began = Instant::now();
    while times_a.len() < 5 || began.elapsed() < budget && times_a.len() < 2_001 {
        clear();
        times_a.push(timed(&mut a, times));
        clear();
        times_b.push(timed(&mut b, times));
    }
    (median(times_a), median(times_b))
}

/// Microseconds for one work.
fn timed(work: &mut impl FnMut(), times: u32) -> f64 {
    let began = Instant::now();
    for _ in 0..times {
        work();
    }
    began.elapsed().as_secs_f64() * 1e6 / f64::from(times)
}

fn median(mut times: Vec<f64>) -> f64 {
    times.sort_by(f64::total_cmp);
    times[times.len() / 2]
}

/// What a row must show, if an issue of the project says so.
enum Asked {
    Nothing,
    /// The call takes at most this many times as long as the other.
    AtMost(f64),
    /// The call is at least this many times as fast as the other.
    Faster(f64),
}

struct Bench {
    budget: Duration,
}

impl Bench {
    fn heading(&self, title: &str) {
        println!("\n{title}\n");
        println!("| the call | against | size | call, µs | other, µs | call ÷ other | other ÷ call | asked |");
        println!("|---|---|---|--:|--:|--:|--:|---|");
    }

    fn row(&self, call: &str, against: &str, size: &str, (ours, other): (f64, f64), asked: Asked) {
        let said = match asked {
            Asked::Nothing => String::new(),
            Asked::AtMost(most) => format!("at most {most}: {}", verdict(ours <= most * other)),
            Asked::Faster(times) => format!("at least {times} times as fast: {}", verdict(other >= times * ours)),
        };
        let (a, b) = (ours / other, other / ours);
        println!("| {call} | {against} | {size} | {ours:.2} | {other:.2} | {a:.3} | {b:.2} | {said} |");
    }
}

fn verdict(met: bool) -> &'static str {
    if met {
        "met"
    } else {
        "NOT MET"
    }
}

/// A network to measure on: a ring through all places, then legs anywhere; times 5 to 90 minutes.
fn regional(seed: u64, places: usize, legs: usize, bands: usize) -> Network {
    let mut dice = Dice::new(seed);
    let mut out = Vec::new();
    for k in 0..legs {
        let from = if k < places { k } else { dice.below(places) };
        let to = if k < places { (k + 1) % places } else { dice.below(places) };
        let mut held = make::eight_bands(&mut dice);
        held.truncate(bands);
        held.iter_mut().for_each(|band| band.toll = dice.between(50, 3_000));
        out.push(Leg { from, to, time: dice.between(5, 90), bands: held });
    }
    Network { places, legs: out }
}

/// Places in a line with one leg to the next, so that the only plan has 63 legs.
fn line(order: &[usize]) -> Network {
    let mut dice = Dice::new(7);
    let legs = order
        .windows(2)
        .map(|pair| {
            let mut bands = make::eight_bands(&mut dice);
            bands.iter_mut().for_each(|band: &mut Band| band.toll = dice.between(50, 3_000));
            Leg { from: pair[0], to: pair[1], time: dice.between(5, 30), bands }
        })
        .collect();
    Network { places: order.len(), legs }
}

fn whole_window(start: usize, end: usize) -> Query {
    Query { start: start as u32, end: end as u32, earliest: 0, latest: LAST_MINUTE }
}

/// A query from place 0 to the place whose least cost is greatest, so that no search can stop early.
fn to_the_dearest(net: &Network, earliest: u32, latest: u32) -> Query {
    by_least_cost(net, earliest, latest, |reached| reached.last().copied())
}

/// A query from place 0 to the place that is cheapest to reach but itself, where a search can stop early.
fn to_the_cheapest(net: &Network, earliest: u32, latest: u32) -> Query {
    by_least_cost(net, earliest, latest, |reached| reached.get(1).copied())
}

/// `choose` sees the places that can be reached, the cheapest first.
fn by_least_cost(net: &Network, earliest: u32, latest: u32, choose: fn(&[usize]) -> Option<usize>) -> Query {
    let query = Query { start: 0, end: 0, earliest, latest };
    let decoded = plain::decode(&network::file_of(net)).unwrap_or_else(|_| unreachable!());
    let mut cells = vec![0; net.places * query.window()];
    plain::fill(&decoded, &query, &mut cells);
    let last = |place: usize| cells[place * query.window() + query.window() - 1];
    let mut reached: Vec<usize> = (0..net.places).filter(|&place| last(place) != u32::MAX).collect();
    reached.sort_by_key(|&place| last(place));
    Query { end: choose(&reached).unwrap_or(0) as u32, ..query }
}

pub fn run(seconds_a_row: f64) -> i32 {
    let bench = Bench { budget: Duration::from_secs_f64(seconds_a_row) };
    println!("Each figure is the median of the runs of one row; the call and the other take turns, and every lent");
    println!("buffer is filled with zeros before each run, outside the measured time. Release build, opt-level 3,");
    println!("one codegen unit, {}.", env!("RUSTC_SAYS"));
    println!("{}", machine());
    for call in ALL {
        if !archive::has(call) {
            println!("The archive has no haul_{} yet: its rows are left out.", call.name());
        }
    }
    if archive::has(Call::Read) || archive::has(Call::Write) {
        bench.files();
    }
    if archive::has(Call::Plan) {
        bench.plans();
        bench.growth();
    }
    if archive::has(Call::Sheet) {
        bench.sheets();
    }
    if archive::has(Call::Gate) {
        bench.gates();
    }
    0
}

/// The processor and how many of it, without the machine's name.
fn machine() -> String {
    let info = std::fs::read_to_string("/proc/cpuinfo").unwrap_or_default();
    let model = info.lines().find_map(|l| l.strip_prefix("model name").map(|r| r.trim_start_matches([' ', '\t', ':'])));
    let cores = info.lines().filter(|l| l.starts_with("processor")).count();
    let clock = info.lines().find_map(|l| l.strip_prefix("cpu MHz").map(|r| r.trim_start_matches([' ', '\t', ':'])));
    format!("{cores} cores, {}, {} MHz.", model.unwrap_or("unknown processor"), clock.unwrap_or("?"))
}

fn size_of(net: &Network, query: &Query) -> String {
    let bands = net.legs.iter().map(|leg| leg.bands.len()).max().unwrap_or(0);
    format!("{} places, {} legs, {} bands, {} minutes", net.places, net.legs.len(), bands, query.window())
}

// Read and write.

impl Bench {
    fn files(&self) {
        self.heading("Network files: read and write");
        let sizes = [(64, 512, 8), (64, 512, 1), (40, 112, 8), (3, 3, 2)];
        for (places, legs, bands) in sizes {
            let net = regional(1, places, legs, bands);
            let file = network::file_of(&net);
            let size = format!("{places} places, {legs} legs, {bands} bands: {} bytes", file.len());
            let largest = bands == 8 && legs == 512;
            if archive::has(Call::Read) {
                self.read_rows(&net, &size, largest);
            }
            if archive::has(Call::Write) {
                self.write_row(&net, &size);
            }
            if largest {
                self.tests_only(&net, &size);
            }
        }
    }

    fn read_rows(&self, net: &Network, size: &str, largest: bool) {
        let others: [(&str, fn(&[u8], &mut [u32]) -> (u32, u32)); 2] = [
            ("plain Rust, one 64-bit load a field", plain::read_by_fields),
            ("plain Rust, one 64-bit load a leg head or band", plain::read_by_groups),
        ];
        let file = network::file_of(net);
        let right = network::list_of(net);
        for (k, (name, other)) in others.into_iter().enumerate() {
            let (mut a, mut b) = (vec![0u32; right.len()], vec![0u32; right.len()]);
            archive::read(&file, &mut a);
            other(&file, &mut b);
            assert!(a == right && b == right, "the readers differ");
            let list = std::cell::RefCell::new(vec![0u32; right.len()]);
            let times = measure(
                self.budget,
                || list.borrow_mut().fill(0),
                || {
                    black_box(archive::read(black_box(&file), &mut list.borrow_mut()).number);
                },
                || {
                    black_box(other(black_box(&file), &mut list.borrow_mut()));
                },
            );
            let asked = if largest && k == 0 { Asked::AtMost(1.5) } else { Asked::Nothing };
            self.row("read", name, size, times, asked);
        }
    }

    /// The tests alone: with no room the answer is 9, and nothing is written.
    fn tests_only(&self, net: &Network, size: &str) {
        let (file, list) = (network::file_of(net), network::list_of(net));
        if archive::has(Call::Read) {
            let ours = || black_box(archive::read(black_box(&file), &mut []).number);
            let other = || black_box(plain::read_by_fields(black_box(&file), &mut [])).0;
            assert_eq!((ours(), other()), (9, 9));
            let times = measure(
                self.budget,
                || (),
                || {
                    ours();
                },
                || {
                    other();
                },
            );
            self.row("read, no room", "plain Rust, one 64-bit load a field", size, times, Asked::Nothing);
        }
        if archive::has(Call::Write) {
            let ours = || black_box(archive::write(black_box(&list), &mut []).number);
            let other = || black_box(plain::write(black_box(&list), &mut [])).0;
            assert_eq!((ours(), other()), (9, 9));
            let times = measure(
                self.budget,
                || (),
                || {
                    ours();
                },
                || {
                    other();
                },
            );
            self.row("write, no room", "plain Rust, 64-bit shifts", size, times, Asked::Nothing);
        }
    }

    fn write_row(&self, net: &Network, size: &str) {
        let list = network::list_of(net);
        let right = network::file_of(net);
        let (mut a, mut b) = (vec![0u8; right.len()], vec![0u8; right.len()]);
        archive::write(&list, &mut a);
        plain::write(&list, &mut b);
        assert!(a == right && b == right, "the writers differ");
        let out = std::cell::RefCell::new(vec![0u8; right.len()]);
        let times = measure(
            self.budget,
            || out.borrow_mut().fill(0),
            || {
                black_box(archive::write(black_box(&list), &mut out.borrow_mut()).number);
            },
            || {
                black_box(plain::write(black_box(&list), &mut out.borrow_mut()));
            },
        );
        self.row("write", "plain Rust, 64-bit shifts", size, times, Asked::Nothing);
    }
}

// Plan, sheet, gate.

/// A work that fills a table and perhaps an output.
type Other<'a> = dyn Fn(&[u8], &Query, &mut [u32], &mut [u8]) + 'a;

const AS_PUBLISHED: Search = Search { stop: true, drop_later: false };
const ALL_PLACES: Search = Search { stop: false, drop_later: false };
const ALL_DROPPED: Search = Search { stop: false, drop_later: true };

const ROOM: usize = 1_100_000;

impl Bench {
    fn against(&self, net: &[u8], query: &Query, call: Call, other: &Other) -> (f64, f64) {
        let cells = std::cell::RefCell::new(vec![0u32; 64 * query.window()]);
        let room = if call == Call::Sheet { ROOM } else { 256 };
        let out = std::cell::RefCell::new(vec![0u8; room]);
        let ours = match call {
            Call::Plan => archive::plan,
            _ => archive::sheet,
        };
        measure(
            self.budget,
            || {
                cells.borrow_mut().fill(0);
                out.borrow_mut().fill(0);
            },
            || {
                black_box(ours(black_box(net), query, &mut cells.borrow_mut(), &mut out.borrow_mut()).number);
            },
            || other(black_box(net), query, &mut cells.borrow_mut(), &mut out.borrow_mut()),
        )
    }

    fn plans(&self) {
        self.heading("Plans: the same algorithm in plain Rust, and other algorithms");
        let net = regional(1, 64, 512, 8);
        self.plan_rows(&net, to_the_dearest(&net, 0, LAST_MINUTE), "", Asked::AtMost(1.25), Asked::Faster(15.0));
        let near = to_the_cheapest(&net, 0, LAST_MINUTE);
        self.plan_rows(&net, near, "; to the cheapest place", Asked::Nothing, Asked::Nothing);
        let up: Vec<usize> = (0..64).collect();
        let down: Vec<usize> = (0..64).rev().collect();
        let mixed: Vec<usize> = (0..64).map(|k| k * 37 % 64).collect();
        for (order, name) in [
            (up, "; a line, best plan 63 legs"),
            (down, "; that line numbered backwards"),
            (mixed, "; that line in mixed order"),
        ] {
            let query = whole_window(order[0], order[63]);
            self.plan_rows(&line(&order), query, name, Asked::Nothing, Asked::Faster(10.0));
        }
        let net = regional(2, 40, 112, 8);
        let query = to_the_dearest(&net, 360, 1_439);
        self.plan_rows(&net, query, "", Asked::Nothing, Asked::Nothing);
    }

    fn plan_rows(&self, net: &Network, query: Query, name: &str, plain_asked: Asked, dijkstra_asked: Asked) {
        let file = network::file_of(net);
        let size = size_of(net, &query) + name;
        agree(&file, &query);
        let decoded = |file: &[u8]| plain::decode(file).unwrap_or_else(|_| unreachable!());
        let rows: [(&str, &Other, Asked); 8] = [
            (
                "the same algorithm in plain Rust",
                &|f, q, c, o| {
                    black_box(plain::plan(f, q, c, o));
                },
                plain_asked,
            ),
            (
                "Dijkstra, binary heap, whole table and walk back",
                &|f, q, c, _| {
                    let net = decoded(f);
                    rivals::dijkstra(&net, q, c, false);
                    black_box(plain::walk_back(&net, q, c, &mut [(0, 0); 64]));
                },
                dijkstra_asked,
            ),
            (
                "Dijkstra, binary heap, stops at the end place, cost only",
                &|f, q, c, _| {
                    black_box(rivals::dijkstra(&decoded(f), q, c, true));
                },
                Asked::Nothing,
            ),
            (
                "Dijkstra, binary heap, waits run through without it",
                &|f, q, c, _| {
                    let net = decoded(f);
                    rivals::dijkstra_without_wait_edges(&net, q, c);
                    black_box(plain::walk_back(&net, q, c, &mut [(0, 0); 64]));
                },
                Asked::Nothing,
            ),
            (
                "a table minute by minute, and walk back",
                &|f, q, c, _| {
                    let net = decoded(f);
                    rivals::minute_by_minute(&net, q, c);
                    black_box(plain::walk_back(&net, q, c, &mut [(0, 0); 64]));
                },
                Asked::Nothing,
            ),
            (
                "the two-step search of source 001, which stops at the end place",
                &|f, q, _, _| {
                    black_box(rivals::two_step(&decoded(f), q, AS_PUBLISHED).map(|p| p.cost));
                },
                Asked::Nothing,
            ),
            (
                "the two-step search, run on for all places",
                &|f, q, _, _| {
                    black_box(rivals::two_step(&decoded(f), q, ALL_PLACES).map(|p| p.cost));
                },
                Asked::Nothing,
            ),
            (
                "the two-step search for all places, dearer later pieces dropped",
                &|f, q, _, _| {
                    black_box(rivals::two_step(&decoded(f), q, ALL_DROPPED).map(|p| p.cost));
                },
                Asked::Nothing,
            ),
        ];
        for (against, other, asked) in rows {
            let times = self.against(&file, &query, Call::Plan, other);
            self.row("plan", against, &size, times, asked);
        }
    }

    /// How the time grows: one size changes, the others stay.
    fn growth(&self) {
        self.heading("Plans: how the time grows with places, legs, bands and window");
        let mut sizes = Vec::new();
        sizes.extend([8, 16, 32, 64].map(|places| (places, 256, 8, LAST_MINUTE)));
        sizes.extend([64, 128, 256, 512].map(|legs| (64, legs, 8, LAST_MINUTE)));
        sizes.extend([1, 2, 4, 8].map(|bands| (64, 512, bands, LAST_MINUTE)));
        sizes.extend([179, 359, 719, 1_439, 2_879].map(|latest| (64, 512, 8, latest)));
        for (places, legs, bands, latest) in sizes {
            let net = regional(3, places, legs, bands);
            let query = to_the_dearest(&net, 0, latest);
            let file = network::file_of(&net);
            agree(&file, &query);
            let times = self.against(&file, &query, Call::Plan, &|f, q, c, _| {
                let net = plain::decode(f).unwrap_or_else(|_| unreachable!());
                rivals::dijkstra(&net, q, c, false);
                black_box(plain::walk_back(&net, q, c, &mut [(0, 0); 64]));
            });
            self.row("plan", "Dijkstra, binary heap", &size_of(&net, &query), times, Asked::Nothing);
        }
    }

    fn sheets(&self) {
        self.heading("Sheets");
        for net in [regional(1, 64, 512, 8), regional(2, 40, 112, 8)] {
            let query = to_the_dearest(&net, 0, LAST_MINUTE);
            let file = network::file_of(&net);
            let size = size_of(&net, &query);
            let times = self.against(&file, &query, Call::Sheet, &|f, q, c, o| {
                black_box(plain::sheet(f, q, c, o));
            });
            self.row("sheet", "the same algorithm in plain Rust", &size, times, Asked::Nothing);
        }
    }

    fn gates(&self) {
        self.heading("The gate");
        let cases = [
            (regional(1, 64, 512, 8), Asked::AtMost(1.25), Asked::AtMost(0.1)),
            (regional(2, 40, 112, 8), Asked::Nothing, Asked::Nothing),
        ];
        for (net, plain_asked, plan_asked) in cases {
            let query = to_the_dearest(&net, 0, LAST_MINUTE);
            let file = network::file_of(&net);
            let size = size_of(&net, &query);
            let mut cells = vec![0; net.places * query.window()];
            let (mut plan, mut sheet) = (vec![0; 256], vec![0; ROOM]);
            let (_, length) = plain::plan(&file, &query, &mut cells, &mut plan);
            plan.truncate(length as usize);
            let (_, length) = plain::sheet(&file, &query, &mut cells, &mut sheet);
            sheet.truncate(length as usize);
            assert_eq!((archive::gate(&file, &plan, &sheet), plain::gate(&file, &plan, &sheet)), (0, 0));
            let ours = || {
                black_box(archive::gate(black_box(&file), &plan, &sheet));
            };
            let times = measure(
                self.budget,
                || (),
                ours,
                || {
                    black_box(plain::gate(black_box(&file), &plan, &sheet));
                },
            );
            let size = format!("{size}; sheet of {} bytes", sheet.len());
            self.row("gate", "the same test in plain Rust", &size, times, plain_asked);
            if archive::has(Call::Plan) {
                let mut out = vec![0; 256];
                let times = measure(
                    self.budget,
                    || (),
                    ours,
                    || {
                        black_box(archive::plan(black_box(&file), &query, &mut cells, &mut out).number);
                    },
                );
                self.row("gate", "the plan call", &size, times, plan_asked);
            }
        }
    }
}

/// Before anything is measured: the call, the plain one and the rivals find the same.
fn agree(file: &[u8], query: &Query) {
    let net = plain::decode(file).unwrap_or_else(|_| panic!("a sound network"));
    let need = net.places * query.window();
    let fresh = || (vec![0u32; need], vec![0u8; 256]);
    let (mut cells, mut out) = fresh();
    let reply = archive::plan(file, query, &mut cells, &mut out);
    let (mut plain_cells, mut plain_out) = fresh();
    let other = plain::plan(file, query, &mut plain_cells, &mut plain_out);
    assert!((reply.number, reply.length) == other && cells == plain_cells && out == plain_out);
    let (mut table, _) = fresh();
    rivals::dijkstra(&net, query, &mut table, false);
    assert!(table == cells, "Dijkstra");
    rivals::dijkstra_without_wait_edges(&net, query, &mut table);
    assert!(table == cells, "Dijkstra without wait edges");
    rivals::minute_by_minute(&net, query, &mut table);
    assert!(table == cells, "minute by minute");
    let cell = cells[query.end as usize * query.window() + query.window() - 1];
    let cost = (cell != u32::MAX).then_some(cell / 64);
    for how in [AS_PUBLISHED, ALL_PLACES, ALL_DROPPED] {
        let found = rivals::two_step(&net, query, how);
        assert_eq!(found.as_ref().map(|f| f.cost), cost, "two-step");
        if let Some(found) = found {
            assert_eq!(paid(&net, &found.back), found.cost, "two-step's plan");
        }
    }
    if let Some(cost) = cost {
        assert_eq!(rivals::dijkstra(&net, query, &mut table, true), cost, "Dijkstra that stops");
    }
}

/// The sum of tolls of a plan.
fn paid(net: &plain::Net, back: &[(usize, u32)]) -> u32 {
    back.iter()
        .map(|&(number, departure)| {
            let leg = &net.legs[number];
            let band = leg.starts[..leg.bands as usize].iter().rposition(|&s| s as u32 <= departure).unwrap();
            leg.tolls[band] as u32
        })
        .sum()
}
