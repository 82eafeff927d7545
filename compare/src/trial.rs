//! The trial network of document 01, its example files, and the worked example of source 001.

use crate::brute;
use crate::calls::{by_the_rules, Case};
use crate::gate;
use crate::network::{self, Band, Leg, Network};
use crate::plan::{arrival, cost, PlanFile, Query, Ride};
use crate::sheet::{Sheet, Step};
use crate::table;
use crate::text;

fn leg(from: usize, to: usize, time: u32, bands: &[(u32, u32)]) -> Leg {
    let bands = bands.iter().map(|&(start, toll)| Band { start, toll }).collect();
    Leg { from, to, time, bands }
}

pub fn network() -> Network {
    let legs =
        vec![leg(0, 1, 10, &[(0, 500), (60, 100)]), leg(1, 2, 20, &[(0, 200), (80, 900)]), leg(0, 2, 40, &[(0, 800)])];
    Network { places: 3, legs }
}

/// Source 001, figure 1, as far as the text gives it. Vertex v1 is place 0. The text gives every number
/// but these three, which are ours: the time and toll of the leg from v2 to v4, and the toll of the leg
/// from v3 to v4 before minute 20. Its pieces are closed on the right, so the last one begins at 26 here.
pub fn worked_example() -> Network {
    let legs = vec![
        leg(0, 1, 10, &[(0, 10)]),
        leg(0, 2, 15, &[(0, 20), (15, 5)]),
        leg(1, 2, 5, &[(0, 10), (15, 5)]),
        leg(1, 3, 20, &[(0, 30)]),
        leg(2, 3, 10, &[(0, 10), (20, 5), (26, 35)]),
    ];
    Network { places: 4, legs }
}

pub fn query(start: u32, end: u32, earliest: u32, latest: u32) -> Query {
    Query { start, end, earliest, latest }
}

/// A row of the table: the query; then cost, arrival and departures, as far as the row gives them.
pub struct Row {
    pub query: Query,
    pub cost: Option<u64>,
    pub arrive: Option<u32>,
    pub leave: Option<&'static [u32]>,
}

fn row(q: (u32, u32, u32, u32), cost: Option<u64>, arrive: Option<u32>, leave: Option<&'static [u32]>) -> Row {
    Row { query: query(q.0, q.1, q.2, q.3), cost, arrive, leave }
}

pub fn rows() -> Vec<Row> {
    vec![
        row((0, 2, 0, 0), None, None, None),
        row((0, 2, 0, 29), None, None, None),
        row((0, 2, 0, 30), Some(700), None, Some(&[0, 10])),
        row((0, 2, 0, 89), Some(700), Some(30), None),
        row((0, 2, 0, 90), Some(300), None, Some(&[60, 70])),
        row((0, 2, 69, 130), Some(300), Some(99), None),
        row((0, 2, 70, 109), Some(1_000), Some(100), None),
        row((0, 2, 70, 130), Some(800), Some(110), None),
        row((1, 1, 5, 5), Some(0), None, Some(&[])),
        row((2, 0, 0, 2_879), None, None, None),
    ]
}

fn departures(plan: &[Ride]) -> Vec<u32> {
    plan.iter().map(|ride| ride.departure).collect()
}

/// Document 01's own examples, held against this program; it stops at the first that fails.
pub fn check_the_rules() {
    check_rows();
    check_sheet();
    check_files();
    check_worked_example();
    check_shipped();
}

fn check_rows() {
    let net = network();
    for row in rows() {
        let table = table::fill(&net, &row.query);
        let plan = table::named_plan(&net, &row.query, &table);
        assert_eq!(plan.as_ref().map(|p| cost(&net, p)), row.cost, "{:?}", row.query);
        if let Some(plan) = plan {
            if let Some(minute) = row.arrive {
                assert_eq!(arrival(&net, &row.query, &plan), minute);
            }
            if let Some(leave) = row.leave {
                assert_eq!(departures(&plan), leave);
            }
        }
    }
}

fn check_sheet() {
    let net = network();
    let q = query(0, 2, 0, 120);
    let table = table::fill(&net, &q);
    let step = |minute, cost| Step { minute, cost };
    let rows = vec![vec![step(0, 0)], vec![step(10, 500), step(70, 100)], vec![step(30, 700), step(90, 300)]];
    assert_eq!(Sheet::of(3, &q, &table), Sheet { rows });
    let plan = table::named_plan(&net, &q, &table).unwrap();
    let file = PlanFile::of(q, 300, plan).bytes();
    assert_eq!(gate::judge(&network::file_of(&net), &file, &Sheet::of(3, &q, &table).bytes()), 0);
}

fn check_files() {
    let one_place = Network { places: 1, legs: Vec::new() };
    assert_eq!(network::file_of(&one_place), [1, 2, 0, 0]);
    let one_leg = Network { places: 2, legs: vec![leg(0, 1, 5, &[(0, 3)])] };
    assert_eq!(network::file_of(&one_leg), [1, 4, 0, 0x80, 8, 2, 0x88, 0, 0, 1, 0x80]);
    for net in [one_place, one_leg, network(), worked_example()] {
        assert_eq!(network::read(&network::file_of(&net)), Ok(net));
    }
}

/// The texts and the bytes in `examples/` are the same networks.
fn check_shipped() {
    let shipped: [(&str, &[u8]); 3] = [
        (include_str!("../../examples/trial.txt"), include_bytes!("../../examples/trial.net")),
        (include_str!("../../examples/worked.txt"), include_bytes!("../../examples/worked.net")),
        (include_str!("../../examples/region.txt"), include_bytes!("../../examples/region.net")),
    ];
    let nets = shipped.map(|(text, bytes)| {
        let net = text::parse(text).unwrap_or_else(|said| panic!("{said}")).net;
        assert_eq!(network::file_of(&net), bytes, "a shipped network is not the one of its text");
        net
    });
    assert_eq!(nets[0], network());
    assert_eq!(nets[1], worked_example());
}

fn check_worked_example() {
    let net = worked_example();
    let q = query(0, 3, 0, 60);
    let table = table::fill(&net, &q);
    let plan = table::named_plan(&net, &q, &table).unwrap();
    assert_eq!(cost(&net, &plan), 20);
    assert_eq!(plan.iter().map(|ride| ride.leg).collect::<Vec<_>>(), [0, 2, 4]);
    assert_eq!(departures(&plan), [0, 15, 20]);
    let short = query(0, 3, 0, 30);
    assert_eq!(brute::solve(&net, &short, 4).0, Some(plan));
}

fn free(from: usize, to: usize, time: u32) -> Leg {
    Leg { from, to, time, bands: vec![Band { start: 0, toll: 0 }] }
}

/// Queries on which a shortcut names the wrong plan.
pub fn traps() -> Vec<(Network, Query)> {
    let of = |places: usize, legs: &[Leg], q: Query| (Network { places, legs: legs.to_vec() }, q);
    let toll = |leg: Leg, toll: u32| Leg { bands: vec![Band { start: 0, toll }], ..leg };
    vec![
        // The end's last cell shows one leg, but the plan that arrives first has two.
        of(3, &[free(0, 1, 1), free(1, 2, 1), free(0, 2, 5)], query(0, 2, 0, 10)),
        // A circle of legs without time and toll, and legs back to their own place.
        of(4, &[free(0, 1, 0), free(1, 2, 0), free(2, 0, 0), toll(free(2, 3, 0), 7)], query(0, 3, 5, 6)),
        of(2, &[free(0, 0, 0), free(1, 1, 0), free(0, 1, 1), free(1, 0, 0)], query(0, 1, 5, 8)),
        // Legs that are alike: the lower number.
        of(3, &[free(1, 2, 1), free(0, 1, 1), free(1, 2, 1), free(0, 1, 1)], query(0, 2, 3, 9)),
        // The same arrival by two ways: the lower last leg, though the other way is earlier before it.
        of(4, &[free(0, 1, 3), free(0, 2, 1), free(1, 3, 1), free(2, 3, 3)], query(0, 3, 0, 6)),
        of(4, &[free(0, 1, 3), free(0, 2, 1), free(2, 3, 3), free(1, 3, 1)], query(0, 3, 0, 6)),
        // The same last leg from a place that is reached sooner by the higher leg.
        of(3, &[free(0, 1, 2), free(0, 1, 1), toll(free(1, 2, 4), 2)], query(0, 2, 0, 9)),
        // Cheaper with more legs, and dearer sooner.
        of(3, &[toll(free(0, 2, 1), 2), toll(free(0, 1, 1), 1), free(1, 2, 1)], query(0, 2, 0, 4)),
        of(3, &[toll(free(0, 2, 1), 2), toll(free(0, 1, 1), 1), free(1, 2, 1)], query(0, 2, 0, 1)),
    ]
}

/// The same examples as cases for the archive.
pub fn cases() -> Vec<Case> {
    let mut out = Vec::new();
    let nets = [network(), worked_example(), Network { places: 1, legs: Vec::new() }];
    for net in &nets {
        let (file, list) = (network::file_of(net), network::list_of(net));
        out.push(Case::Read { net: file.clone(), list: vec![7; list.len() + 2] });
        out.push(Case::Write { list, out: vec![7; file.len() + 2] });
    }
    let mut queries: Vec<(&Network, Query)> = rows().iter().map(|row| (&nets[0], row.query)).collect();
    queries.push((&nets[0], query(0, 2, 0, 120)));
    queries.push((&nets[1], query(0, 3, 0, 60)));
    let traps = traps();
    queries.extend(traps.iter().map(|(net, q)| (net, *q)));
    for (net, q) in queries {
        let file = network::file_of(net);
        let table = vec![7; net.places * q.window() + 1];
        let plan = Case::Plan { net: file.clone(), query: q, table: table.clone(), out: vec![7; 200] };
        let sheet = Case::Sheet { net: file.clone(), query: q, table, out: vec![7; 200] };
        let (a, b) = (by_the_rules(&plan), by_the_rules(&sheet));
        let (a, b) = (a.out[..a.length as usize].to_vec(), b.out[..b.length as usize].to_vec());
        out.extend([plan, sheet, Case::Gate { net: file, plan: a, sheet: b }]);
    }
    out
}
