//! Runs the archive and the rules on many cases and stops at the first difference.

use crate::archive::{self, Archive};
use crate::bits::pack;
use crate::brute;
use crate::calls::{by_the_rules, Call, Case, Outcome, ALL};
use crate::crash;
use crate::damage;
use crate::dice::Dice;
use crate::make;
use crate::network::{self, Network};
use crate::plan::{cost, PlanFile, Query, Ride};
use crate::sheet::{Sheet, Step};
use crate::show;
use crate::table;
use crate::trial;
use std::time::{Duration, Instant};

/// Where the first difference is kept.
const KEPT: &str = "difference.txt";

pub struct Wish {
    pub seconds: u64,
    pub seed: u64,
    /// Only this round, if one is named.
    pub round: Option<u64>,
    pub calls: Vec<Call>,
}

/// How many cases of each call gave each answer.
#[derive(Default)]
pub struct Tally {
    counts: [[u64; 16]; 5],
    /// How many of our sheets have at most 15, just 16, just 17 and more steps at the place that has most.
    sheets: [u64; 4],
}

impl Tally {
    fn add(&mut self, call: Call, number: u32) {
        self.counts[call as usize][number as usize] += 1;
    }

    fn of(&self, call: Call, number: u32) -> u64 {
        self.counts[call as usize][number as usize]
    }

    fn sheet(&mut self, sheet: &Sheet) {
        let most = sheet.rows.iter().map(Vec::len).max().unwrap_or(0);
        self.sheets[most.saturating_sub(15).min(3)] += 1;
    }

    fn total(&self) -> u64 {
        self.counts.iter().flatten().sum()
    }

    /// Prints the table and says whether an answer is untried.
    fn print(&self, calls: &[Call]) -> bool {
        let mut untried = false;
        print!("{:>7}", "answer");
        for call in calls {
            print!("{:>12}", call.name());
        }
        println!();
        for number in 0..16 {
            if !calls.iter().any(|call| call.answers().contains(&number)) {
                continue;
            }
            print!("{number:>7}");
            for call in calls {
                if !call.answers().contains(&number) {
                    print!("{:>12}", "-");
                } else if self.of(*call, number) == 0 {
                    untried = true;
                    print!("{:>12}", "UNTRIED");
                } else {
                    print!("{:>12}", self.of(*call, number));
                }
            }
            println!();
        }
        let [few, sixteen, seventeen, more] = self.sheets;
        println!("sheets by the most steps of a place: {few} up to 15, {sixteen} with 16, {seventeen} with 17, {more} with more");
        untried
    }
}

/// The run: what is asked, where it is, what it saw.
struct Run<'a> {
    wish: &'a Wish,
    archive: Archive,
    tally: Tally,
    round: u64,
}

/// Runs the comparison; the exit status.
pub fn run(wish: &Wish) -> i32 {
    trial::check_the_rules();
    println!("the trial rows, the example files and the worked example hold for the rules");
    let began = Instant::now();
    let limit = Duration::from_secs(wish.seconds);
    self_check(wish.seed, limit / 20);
    let calls: Vec<Call> = wish.calls.iter().copied().filter(|&call| archive::has(call)).collect();
    for call in ALL {
        if !archive::has(call) {
            println!("the archive has no haul_{} yet: not compared", call.name());
        }
    }
    let wish = Wish { calls, ..*wish };
    if wish.calls.is_empty() {
        println!("nothing to compare");
        return 0;
    }
    crash::watch(wish.seed);
    let mut run = Run { wish: &wish, archive: Archive::new(), tally: Tally::default(), round: 0 };
    match run.rounds(began, limit) {
        Ok(()) => {
            println!("{} rounds, {} cases, no difference", run.round, run.tally.total());
            let untried = run.tally.print(&wish.calls);
            i32::from(untried && wish.round.is_none()) * 2
        }
        Err(said) => {
            println!("DIFFERENCE at seed {} round {}", wish.seed, run.round);
            println!("{}", show::shortened(&said));
            match std::fs::write(KEPT, &said) {
                Ok(()) => println!("kept whole in {KEPT}: run `again {KEPT}`"),
                Err(error) => println!("{KEPT} could not be written: {error}"),
            }
            1
        }
    }
}

/// The planner of this program against its enumeration of every plan.
fn self_check(seed: u64, limit: Duration) {
    let began = Instant::now();
    let mut dice = Dice::new(seed ^ 0x5E1F);
    let (mut cases, mut plans, mut found) = (0u64, 0u64, 0u64);
    while cases < 200 || began.elapsed() < limit {
        let shape = make::tiny(&mut dice);
        let net = make::network(&mut dice, &shape);
        let query = make::query(&mut dice, &net, shape.from, shape.window);
        let (best, cells, seen) = brute::solve(&net, &query, net.places);
        let ours = table::fill(&net, &query);
        assert!(ours == cells, "own table and enumeration differ: {net:?} {query:?}");
        let named = table::named_plan(&net, &query, &ours);
        assert_eq!(named, best, "own plan and enumeration differ: {net:?} {query:?}");
        cases += 1;
        plans += seen;
        found += u64::from(best.is_some());
    }
    println!("own planner against enumeration: {cases} queries, {found} with a plan, {plans} plans seen, all alike");
}

impl Run<'_> {
    fn rounds(&mut self, began: Instant, limit: Duration) -> Result<(), String> {
        self.round = self.wish.round.unwrap_or(0);
        if self.round == 0 {
            for case in trial::cases() {
                self.check(case)?;
            }
        }
        if self.wish.round.is_some() {
            return self.one_round();
        }
        while began.elapsed() < limit {
            self.one_round()?;
            self.round += 1;
        }
        Ok(())
    }

    /// A round depends on the seed and its number alone.
    fn one_round(&mut self) -> Result<(), String> {
        crash::at_round(self.round);
        let mut dice = Dice::new(self.wish.seed.wrapping_mul(0x0100_0000_01B3).wrapping_add(self.round));
        dice.next();
        match self.round % 100 {
            0 => self.largest_files(&mut dice),
            1 => self.largest_plans(&mut dice),
            2..=5 => self.chains(&mut dice),
            6..=9 => self.middle_plans(&mut dice),
            10..=13 => self.stairs(&mut dice),
            14..=29 => self.small_files(&mut dice),
            k => self.small_plans(&mut dice, k % 2 == 0),
        }
    }

    fn wants(&self, call: Call) -> bool {
        self.wish.calls.contains(&call)
    }

    /// One case, if its call is asked for: the rules and the archive must agree.
    fn check(&mut self, case: Case) -> Result<u32, String> {
        if !self.wants(case.call()) {
            return Ok(u32::MAX);
        }
        let right = by_the_rules(&case);
        self.tally.add(case.call(), right.number);
        if self.wish.round.is_some() {
            std::fs::write(KEPT, show::case(&case)).map_err(|error| error.to_string())?;
        }
        judge(&case, &right, self.archive.outcome(&case))?;
        Ok(right.number)
    }

    fn read(&mut self, dice: &mut Dice, net: &[u8], room: usize) -> Result<u32, String> {
        self.check(Case::Read { net: net.to_vec(), list: make::numbers(dice, room) })
    }

    fn write(&mut self, dice: &mut Dice, list: &[u32], room: usize) -> Result<u32, String> {
        self.check(Case::Write { list: list.to_vec(), out: make::bytes(dice, room) })
    }

    // Read and write.

    /// One small network: every cut, every bit, every field, every room.
    fn small_files(&mut self, dice: &mut Dice) -> Result<(), String> {
        let shape = if dice.once_in(2) { make::tiny(dice) } else { make::small(dice) };
        let net = make::network(dice, &shape);
        let file = network::file_of(&net);
        let list = network::list_of(&net);
        for room in make::rooms(dice, list.len()) {
            self.read(dice, &file, room)?;
        }
        for room in make::rooms(dice, file.len()) {
            self.write(dice, &list, room)?;
        }
        for bad in damage::truncated(&file).chain(damage::flipped(&file)).chain(damage::extended(&file)) {
            let room = list.len() + dice.below(3);
            self.read(dice, &bad, room)?;
        }
        self.cut_and_extended_lists(dice, &list, file.len())?;
        self.each_field(dice, &net)?;
        for _ in 0..20 {
            let bad = damage::any(dice, &file);
            let room = dice.below(2 * list.len());
            self.read(dice, &bad, room)?;
        }
        Ok(())
    }

    fn cut_and_extended_lists(&mut self, dice: &mut Dice, list: &[u32], size: usize) -> Result<(), String> {
        for end in 0..list.len() {
            let room = size + dice.below(3);
            self.write(dice, &list[..end], room)?;
        }
        for extra in [0, 1, u32::MAX] {
            let longer = [list, &[extra]].concat();
            self.write(dice, &longer, size)?;
            self.write(dice, &longer, 0)?;
        }
        Ok(())
    }

    /// Each field set to each value of interest, in the file and in the list; sometimes a second field too.
    fn each_field(&mut self, dice: &mut Dice, net: &Network) -> Result<(), String> {
        let fields = network::fields_of(net);
        for k in 0..fields.len() {
            let (width, value) = fields[k];
            for other in damage::values_that_fit(width, value) {
                let mut changed = fields.clone();
                changed[k].1 = other;
                if dice.once_in(4) {
                    second_fault(dice, &mut changed);
                }
                let bad = pack(&changed);
                let room = fields.len() + dice.below(2);
                self.read(dice, &bad, room)?;
            }
            for other in damage::values_at_all(width, value) {
                let mut changed: Vec<u32> = fields.iter().map(|f| f.1).collect();
                changed[k] = other;
                if dice.once_in(4) {
                    let at = dice.below(changed.len());
                    changed[at] = dice.next() as u32;
                }
                let room = pack(&fields).len() + dice.below(2);
                self.write(dice, &changed, room)?;
            }
        }
        Ok(())
    }

    /// The largest file and its list, sound and damaged anywhere.
    fn largest_files(&mut self, dice: &mut Dice) -> Result<(), String> {
        let net = make::largest(dice);
        let file = network::file_of(&net);
        let list = network::list_of(&net);
        assert_eq!(file.len(), 16_132);
        for room in make::rooms(dice, list.len()) {
            self.read(dice, &file, room)?;
        }
        for room in make::rooms(dice, file.len()) {
            self.write(dice, &list, room)?;
        }
        for _ in 0..40 {
            let bad = damage::any(dice, &file);
            self.read(dice, &bad, list.len())?;
        }
        for _ in 0..40 {
            let mut bad = list.clone();
            let at = dice.below(bad.len());
            match dice.below(4) {
                0 => bad.truncate(at),
                1 => bad[at] = dice.next() as u32,
                _ => bad[at] = bad[at].wrapping_add(dice.pick(&[1, u32::MAX, 1 << 16, 1 << 12])),
            }
            self.write(dice, &bad, file.len())?;
        }
        Ok(())
    }

    // Plan and sheet.

    /// The plan call and the sheet call with this room for cells and output.
    fn plan_and_sheet(
        &mut self,
        dice: &mut Dice,
        net: &[u8],
        query: Query,
        cells: usize,
        room: [usize; 2],
    ) -> Result<(), String> {
        let table = make::numbers(dice, cells);
        let (net, out) = (net.to_vec(), make::bytes(dice, room[0]));
        self.check(Case::Plan { net: net.clone(), query, table: table.clone(), out })?;
        let out = make::bytes(dice, room[1]);
        self.check(Case::Sheet { net, query, table, out })?;
        Ok(())
    }

    fn wants_plans(&self) -> bool {
        self.wants(Call::Plan) || self.wants(Call::Sheet) || self.wants(Call::Gate)
    }

    fn small_plans(&mut self, dice: &mut Dice, smallest: bool) -> Result<(), String> {
        if !self.wants_plans() {
            return self.small_files(dice);
        }
        let shape = if smallest { make::tiny(dice) } else { make::small(dice) };
        let net = make::network(dice, &shape);
        for _ in 0..3 {
            let query = make::query(dice, &net, shape.from, shape.window);
            self.rooms_for(dice, &net, query)?;
            self.refused_plans(dice, &net, query)?;
            self.gate_cases(dice, &net, query, smallest)?;
        }
        Ok(())
    }

    /// One query with every room for the output and the table.
    fn rooms_for(&mut self, dice: &mut Dice, net: &Network, query: Query) -> Result<(), String> {
        let made = Made::of(net, query);
        let file = network::file_of(net);
        let cells = net.places * query.window();
        let plan_rooms = make::rooms(dice, made.plan.len());
        let sheet_rooms = make::rooms(dice, made.sheet.len());
        for k in 0..plan_rooms.len() {
            let more = cells + dice.pick(&[0, 1, 7]);
            self.plan_and_sheet(dice, &file, query, more, [plan_rooms[k], sheet_rooms[k]])?;
        }
        for few in [cells - 1, 0, cells / 2] {
            self.plan_and_sheet(dice, &file, query, few, [made.plan.len(), made.sheet.len()])?;
            self.plan_and_sheet(dice, &file, query, few, [0, 0])?;
        }
        Ok(())
    }

    /// Damaged networks and bad queries, with good and bad rooms.
    fn refused_plans(&mut self, dice: &mut Dice, net: &Network, query: Query) -> Result<(), String> {
        let file = network::file_of(net);
        for _ in 0..6 {
            let bad = bad_network(dice, net);
            let query = if dice.once_in(3) { make::bad_query(dice, &query, net.places) } else { query };
            let room = dice.pick(&[0, 12, 200, 5_000]);
            let cells = dice.below(2 * net.places * 10 + 1);
            self.plan_and_sheet(dice, &bad, query, cells, [room, room])?;
        }
        for _ in 0..4 {
            let bad = make::bad_query(dice, &query, net.places);
            let window = if bad.fault(net.places).is_none() { bad.window() } else { query.window() };
            let cells = (net.places * window + dice.below(3)).saturating_sub(1);
            let room = dice.pick(&[0, 12, 400]);
            self.plan_and_sheet(dice, &file, bad, cells, [room, room])?;
        }
        Ok(())
    }

    fn middle_plans(&mut self, dice: &mut Dice) -> Result<(), String> {
        if !self.wants_plans() {
            return Ok(());
        }
        let shape = make::middle(dice);
        let net = make::network(dice, &shape);
        let query = make::query(dice, &net, shape.from, shape.window);
        self.exact_and_gate(dice, &net, query)
    }

    fn chains(&mut self, dice: &mut Dice) -> Result<(), String> {
        if !self.wants_plans() {
            return Ok(());
        }
        let places = dice.pick(&[2, 3, 17, 63, 64]);
        let (time, toll) = (dice.pick(&[0, 1, 2]), dice.pick(&[0, 1, 65_535]));
        let mut net = make::chain(dice, places, time, toll);
        if dice.once_in(2) {
            let shape =
                make::Shape { places: places as u32, legs: 40, bands: 3, time: 3, toll: 2, from: 0, window: 150 };
            net.legs.extend(make::network(dice, &shape).legs);
        }
        let query = make::query(dice, &net, 0, 150);
        self.exact_and_gate(dice, &net, query)
    }

    /// Places with about sixteen steps, where the gate goes one way or the other.
    fn stairs(&mut self, dice: &mut Dice) -> Result<(), String> {
        if !self.wants_plans() {
            return Ok(());
        }
        let window = dice.between(30, 400);
        let net = make::stairs(dice, window);
        let query = Query { start: 0, end: (net.places - 1) as u32, earliest: dice.between(0, 3), latest: window };
        self.exact_and_gate(dice, &net, query)
    }

    fn largest_plans(&mut self, dice: &mut Dice) -> Result<(), String> {
        if !self.wants_plans() {
            return Ok(());
        }
        let net = make::largest(dice);
        let query = make::query(dice, &net, 0, network::LAST_MINUTE);
        self.exact_and_gate(dice, &net, query)
    }

    /// Exact room, then one short, then the gate with a few changes.
    fn exact_and_gate(&mut self, dice: &mut Dice, net: &Network, query: Query) -> Result<(), String> {
        let made = Made::of(net, query);
        let file = network::file_of(net);
        let cells = net.places * query.window();
        self.plan_and_sheet(dice, &file, query, cells, [made.plan.len(), made.sheet.len()])?;
        self.plan_and_sheet(dice, &file, query, cells + 3, [made.plan.len() - 1, made.sheet.len() - 1])?;
        self.plan_and_sheet(dice, &file, query, cells - 1, [made.plan.len(), made.sheet.len()])?;
        self.gate(&file, &made.plan, &made.sheet)?;
        self.tally.sheet(&made.sheet_file);
        for _ in 0..6 {
            let plan = changed_plan(dice, &made.plan_file);
            self.gate(&file, &plan, &made.sheet)?;
            let sheet = changed_sheet(dice, &made.sheet_file, &query);
            self.gate(&file, &made.plan, &sheet)?;
        }
        Ok(())
    }

    // The gate.

    fn gate(&mut self, net: &[u8], plan: &[u8], sheet: &[u8]) -> Result<u32, String> {
        self.check(Case::Gate { net: net.to_vec(), plan: plan.to_vec(), sheet: sheet.to_vec() })
    }

    fn gate_cases(&mut self, dice: &mut Dice, net: &Network, query: Query, smallest: bool) -> Result<(), String> {
        if !self.wants(Call::Gate) {
            return Ok(());
        }
        let file = network::file_of(net);
        let made = Made::of(net, query);
        self.gate(&file, &made.plan, &made.sheet)?;
        if smallest {
            self.other_makers(&file, net, query, &made)?;
        }
        for _ in 0..12 {
            let plan = changed_plan(dice, &made.plan_file);
            self.gate(&file, &plan, &made.sheet)?;
        }
        for _ in 0..20 {
            let sheet = changed_sheet(dice, &made.sheet_file, &query);
            self.gate(&file, &made.plan, &sheet)?;
            if dice.once_in(4) {
                let plan = changed_plan(dice, &made.plan_file);
                self.gate(&file, &plan, &sheet)?;
            }
        }
        for _ in 0..3 {
            let bad = bad_network(dice, net);
            let plan = if dice.once_in(2) { damage::any(dice, &made.plan) } else { made.plan.clone() };
            self.gate(&bad, &plan, &made.sheet)?;
        }
        Ok(())
    }

    /// Plans of other makers: feasible ones of each cost, with the true sum and our sheet.
    fn other_makers(&mut self, file: &[u8], net: &Network, query: Query, made: &Made) -> Result<(), String> {
        let mut plans: Vec<Vec<Ride>> = Vec::new();
        brute::every_plan(net, &query, net.places + 1, &mut |plan, place, _| {
            if place == query.end as usize && plans.len() < 400 {
                plans.push(plan.to_vec());
            }
        });
        let every = plans.len() / 25 + 1;
        for plan in plans.into_iter().step_by(every) {
            let sum = cost(net, &plan) as u32;
            self.gate(file, &PlanFile::of(query, sum, plan).bytes(), &made.sheet)?;
        }
        self.gate(file, &PlanFile::none(query).bytes(), &made.sheet)?;
        Ok(())
    }
}

/// Our plan and sheet for one query, by the rules.
pub struct Made {
    pub plan_file: PlanFile,
    pub sheet_file: Sheet,
    pub plan: Vec<u8>,
    pub sheet: Vec<u8>,
}

impl Made {
    pub fn of(net: &Network, query: Query) -> Made {
        let table = table::fill(net, &query);
        let plan_file = match table::named_plan(net, &query, &table) {
            Some(rides) => PlanFile::of(query, cost(net, &rides) as u32, rides),
            None => PlanFile::none(query),
        };
        let sheet_file = Sheet::of(net.places, &query, &table);
        Made { plan: plan_file.bytes(), sheet: sheet_file.bytes(), plan_file, sheet_file }
    }
}

/// Changes one more field, to a value that fits its width.
fn second_fault(dice: &mut Dice, fields: &mut [(usize, u32)]) {
    let at = dice.below(fields.len());
    let (width, value) = fields[at];
    fields[at].1 = dice.pick(&damage::values_that_fit(width, value));
}

/// A network file with damage to its bytes or to one of its fields.
pub fn bad_network(dice: &mut Dice, net: &Network) -> Vec<u8> {
    if dice.once_in(2) {
        return damage::any(dice, &network::file_of(net));
    }
    let mut fields = network::fields_of(net);
    second_fault(dice, &mut fields);
    pack(&fields)
}

fn near(dice: &mut Dice, value: u32, top: u32) -> u32 {
    match dice.below(6) {
        0 => dice.between(0, top),
        1 => top,
        2 | 3 => value.saturating_sub(1),
        _ => (value + 1).min(top),
    }
}

/// A plan file with one thing changed, or with damage to its bytes.
pub fn changed_plan(dice: &mut Dice, plan: &PlanFile) -> Vec<u8> {
    let mut file = plan.clone();
    let query = &mut file.query;
    match dice.below(16) {
        0 => query.start = near(dice, query.start, 63),
        1 => query.end = near(dice, query.end, 63),
        2 => query.earliest = near(dice, query.earliest, 4_095),
        3 => query.latest = near(dice, query.latest, 4_095),
        4 => std::mem::swap(&mut query.earliest, &mut query.latest),
        5 => file.cost = near(dice, file.cost, u32::MAX),
        6 => file.verdict = !file.verdict,
        7 => file = PlanFile::none(file.query),
        8 | 9 => change_a_ride(dice, &mut file.rides),
        10 => {
            let at = dice.below(file.rides.len() + 1);
            file.rides.insert(at, Ride { leg: dice.below(12), departure: file.query.earliest });
        }
        11 if !file.rides.is_empty() => {
            file.rides.remove(dice.below(file.rides.len()));
        }
        12 => {
            let count = dice.pick(&[62, 63, 64, 65, 200]);
            let ride = file.rides.last().copied().unwrap_or(Ride { leg: 0, departure: file.query.earliest });
            file.rides.resize(count, ride);
            file.verdict = true;
        }
        13 if file.query.start == file.query.end => {
            file.rides.clear();
            file.verdict = true;
        }
        14 => file.rides.reverse(),
        _ => return damage::any(dice, &plan.bytes()),
    }
    file.bytes()
}

fn change_a_ride(dice: &mut Dice, rides: &mut [Ride]) {
    if rides.is_empty() {
        return;
    }
    let ride = &mut rides[dice.below(rides.len())];
    if dice.once_in(2) {
        ride.leg = near(dice, ride.leg as u32, 511) as usize;
    } else {
        ride.departure = near(dice, ride.departure, 4_095);
    }
}

/// A sheet file with one or two things changed, or with damage to its bytes.
pub fn changed_sheet(dice: &mut Dice, sheet: &Sheet, query: &Query) -> Vec<u8> {
    if dice.once_in(6) {
        return damage::any(dice, &sheet.bytes());
    }
    let mut sheet = sheet.clone();
    for _ in 0..dice.between(1, 2) {
        change_sheet(dice, &mut sheet, query);
    }
    sheet.bytes()
}

fn change_sheet(dice: &mut Dice, sheet: &mut Sheet, query: &Query) {
    if dice.once_in(30) {
        if dice.once_in(2) {
            sheet.rows.pop();
        } else if sheet.rows.len() < 127 {
            sheet.rows.push(Vec::new());
        }
        return;
    }
    if dice.once_in(20) {
        let at_once = Step { minute: query.earliest, cost: 0 };
        sheet.rows.iter_mut().for_each(|row| *row = vec![at_once]);
        return;
    }
    if sheet.rows.is_empty() {
        return;
    }
    let place = dice.below(sheet.rows.len());
    change_row(dice, &mut sheet.rows[place], query);
}

fn change_row(dice: &mut Dice, row: &mut Vec<Step>, query: &Query) {
    let minute = match dice.below(8) {
        0 => query.earliest.saturating_sub(1),
        1 => (query.latest + 1).min(4_095),
        _ => dice.between(query.earliest, query.latest),
    };
    let at = row.iter().position(|step| step.minute >= minute).unwrap_or(row.len());
    match dice.below(6) {
        0 if !row.is_empty() => {
            row.remove(dice.below(row.len()));
        }
        1 | 2 if !row.is_empty() => {
            let step = dice.below(row.len());
            row[step].cost = near(dice, row[step].cost, u32::MAX);
        }
        3 if !row.is_empty() => {
            let step = dice.below(row.len());
            row[step].minute = near(dice, row[step].minute, 4_095);
        }
        4 => {
            let above = if at == 0 { 5 } else { row[at - 1].cost };
            row.insert(at, Step { minute, cost: above.saturating_sub(1) });
        }
        _ => {
            let at = dice.below(row.len() + 1);
            row.insert(at, Step { minute, cost: dice.pick(&[0, 1, 2, 100, u32::MAX]) });
        }
    }
}

/// The archive's outcome must be the rules' outcome.
fn judge(case: &Case, right: &Outcome, got: Result<Outcome, String>) -> Result<(), String> {
    match got {
        Err(said) => Err(format!("{said}\n{}", show::case(case))),
        Ok(got) if got == *right => Ok(()),
        Ok(got) => Err(format!("{}\n{}", show::difference(right, &got), show::case(case))),
    }
}

/// One case of a difference file.
pub fn again(case: &Case) -> Result<Outcome, String> {
    let right = by_the_rules(case);
    judge(case, &right, Archive::new().outcome(case))?;
    Ok(right)
}
