//! The same calls in plain, unproved Rust, written for speed: what the proved calls are measured against.
//! Each does the whole job: the same tests, and nothing is written before the answer is known.

use crate::plan::Query;

const NONE: u32 = u32::MAX;
const LAST: u64 = 2_879;

// Fields by shifts on 64-bit words.

/// The eight bytes from `byte` on as one number, zeros past the end.
#[inline(always)]
fn word(file: &[u8], byte: usize) -> u64 {
    match file.get(byte..byte + 8) {
        Some(bytes) => u64::from_be_bytes(bytes.try_into().unwrap()),
        None => last_word(file, byte),
    }
}

#[cold]
fn last_word(file: &[u8], byte: usize) -> u64 {
    let mut bytes = [0; 8];
    let rest = &file[byte.min(file.len())..];
    bytes[..rest.len()].copy_from_slice(rest);
    u64::from_be_bytes(bytes)
}

/// A field of 1 to 56 bits at bit `at`.
#[inline(always)]
fn take(file: &[u8], at: usize, width: usize) -> u64 {
    word(file, at / 8) << (at % 8) >> (64 - width)
}

/// True when the bits from `at` on are fewer than eight and all zero.
fn clean_tail(file: &[u8], at: usize) -> bool {
    let bits = file.len() * 8;
    bits - at < 8 && (at == bits || take(file, at, 8) == 0)
}

/// One field: short, then range.
#[inline(always)]
fn field(file: &[u8], at: &mut usize, width: usize, low: u64, high: u64, fault: u32) -> Result<u64, u32> {
    if *at + width > file.len() * 8 {
        return Err(1);
    }
    let value = take(file, *at, width);
    if value < low || value > high {
        return Err(fault);
    }
    *at += width;
    Ok(value)
}

/// Edition, places, legs.
#[inline(always)]
fn head(file: &[u8], at: &mut usize) -> Result<(u64, u64), u32> {
    field(file, at, 8, 1, 1, 2)?;
    let places = field(file, at, 7, 1, 64, 3)?;
    let legs = field(file, at, 10, 0, 512, 3)?;
    Ok((places, legs))
}

// Read, one load for each field.

fn check_by_fields(file: &[u8]) -> Result<usize, u32> {
    let mut at = 0;
    let (places, legs) = head(file, &mut at)?;
    let mut count = 3;
    for _ in 0..legs {
        field(file, &mut at, 6, 0, places - 1, 3)?;
        field(file, &mut at, 6, 0, places - 1, 3)?;
        field(file, &mut at, 12, 0, LAST, 3)?;
        let bands = field(file, &mut at, 4, 1, 8, 3)?;
        let mut least = 0;
        for k in 0..bands {
            let start = field(file, &mut at, 12, 0, LAST, 3)?;
            if start < least || k == 0 && start > 0 {
                return Err(4);
            }
            least = start + 1;
            field(file, &mut at, 16, 0, 65_535, 3)?;
        }
        count += 4 + 2 * bands as usize;
    }
    if clean_tail(file, at) {
        Ok(count)
    } else {
        Err(5)
    }
}

pub fn read_by_fields(file: &[u8], list: &mut [u32]) -> (u32, u32) {
    let count = match check_by_fields(file) {
        Ok(count) => count,
        Err(fault) => return (fault, 0),
    };
    if count > list.len() {
        return (9, 0);
    }
    let list = &mut list[..count];
    let mut at = 0;
    let mut filled = 0;
    let mut next = |width: usize| {
        let value = take(file, at, width) as u32;
        at += width;
        list[filled] = value;
        filled += 1;
        value
    };
    next(8);
    next(7);
    let legs = next(10);
    for _ in 0..legs {
        next(6);
        next(6);
        next(12);
        let bands = next(4);
        for _ in 0..bands {
            next(12);
            next(16);
        }
    }
    (0, count as u32)
}

// Read, one load for each leg head and each band.

/// A leg head of 28 bits, judged; the number of bands.
#[inline(always)]
fn leg_head(file: &[u8], at: usize, places: u64) -> Result<u64, u32> {
    if at + 28 > file.len() * 8 {
        return leg_head_at_the_end(file, at, places);
    }
    let all = take(file, at, 28);
    let (from, to, time, bands) = (all >> 22, all >> 16 & 63, all >> 4 & 4_095, all & 15);
    if from >= places || to >= places || time > LAST || bands.wrapping_sub(1) > 7 {
        return Err(3);
    }
    Ok(bands)
}

#[cold]
fn leg_head_at_the_end(file: &[u8], mut at: usize, places: u64) -> Result<u64, u32> {
    field(file, &mut at, 6, 0, places - 1, 3)?;
    field(file, &mut at, 6, 0, places - 1, 3)?;
    field(file, &mut at, 12, 0, LAST, 3)?;
    field(file, &mut at, 4, 1, 8, 3)
}

fn check_by_groups(file: &[u8]) -> Result<usize, u32> {
    let bits = file.len() * 8;
    let mut at = 0;
    let (places, legs) = head(file, &mut at)?;
    let mut count = 3;
    for _ in 0..legs {
        let bands = leg_head(file, at, places)?;
        at += 28;
        let mut least = 0;
        let mut most = 0;
        for _ in 0..bands {
            if at + 12 > bits {
                return Err(1);
            }
            let start = take(file, at, 12);
            if start > LAST {
                return Err(3);
            }
            if start < least || start > most {
                return Err(4);
            }
            if at + 28 > bits {
                return Err(1);
            }
            least = start + 1;
            most = LAST;
            at += 28;
        }
        count += 4 + 2 * bands as usize;
    }
    if clean_tail(file, at) {
        Ok(count)
    } else {
        Err(5)
    }
}

pub fn read_by_groups(file: &[u8], list: &mut [u32]) -> (u32, u32) {
    let count = match check_by_groups(file) {
        Ok(count) => count,
        Err(fault) => return (fault, 0),
    };
    if count > list.len() {
        return (9, 0);
    }
    let top = take(file, 0, 25);
    list[0] = (top >> 17) as u32;
    list[1] = (top >> 10 & 127) as u32;
    list[2] = (top & 1_023) as u32;
    let mut rest = &mut list[3..count];
    let mut at = 25;
    while let Some((leg, after)) = rest.split_first_chunk_mut::<4>() {
        let all = take(file, at, 28) as u32;
        *leg = [all >> 22, all >> 16 & 63, all >> 4 & 4_095, all & 15];
        at += 28;
        let (bands, after) = after.split_at_mut(2 * (all & 15) as usize);
        for band in bands.chunks_exact_mut(2) {
            let both = take(file, at, 28) as u32;
            band[0] = both >> 16;
            band[1] = both & 65_535;
            at += 28;
        }
        rest = after;
    }
    (0, count as u32)
}

// Write.

/// The number of bytes of the file that a list stands for, or the fault of the list.
fn check_list(list: &[u32]) -> Result<usize, u32> {
    let mut rest = list.iter();
    let mut next = |low: u32, high: u32, fault: u32| -> Result<u32, u32> {
        let &value = rest.next().ok_or(1u32)?;
        if value < low || value > high {
            Err(fault)
        } else {
            Ok(value)
        }
    };
    next(1, 1, 2)?;
    let places = next(1, 64, 3)?;
    let legs = next(0, 512, 3)?;
    let mut bits = 25;
    for _ in 0..legs {
        next(0, places - 1, 3)?;
        next(0, places - 1, 3)?;
        next(0, LAST as u32, 3)?;
        let bands = next(1, 8, 3)?;
        let mut least = 0;
        let mut most = 0;
        for _ in 0..bands {
            let start = next(0, LAST as u32, 3)?;
            if start < least || start > most {
                return Err(4);
            }
            least = start + 1;
            most = LAST as u32;
            next(0, 65_535, 3)?;
        }
        bits += 28 * (1 + bands as usize);
    }
    if rest.next().is_some() {
        Err(5)
    } else {
        Ok(bits.div_ceil(8))
    }
}

/// Bits on their way into bytes, four bytes at a time.
struct Packer<'a> {
    out: &'a mut [u8],
    at: usize,
    held: u64,
    bits: u32,
}

impl<'a> Packer<'a> {
    fn new(out: &'a mut [u8]) -> Packer<'a> {
        Packer { out, at: 0, held: 0, bits: 0 }
    }

    #[inline(always)]
    fn put(&mut self, width: u32, value: u32) {
        self.held = self.held << width | u64::from(value);
        self.bits += width;
        if self.bits >= 32 {
            self.bits -= 32;
            let four = ((self.held >> self.bits) as u32).to_be_bytes();
            self.out[self.at..self.at + 4].copy_from_slice(&four);
            self.at += 4;
        }
    }

    /// The last bytes, filled with zero bits; the length of all.
    fn finish(self) -> usize {
        let left = self.bits.div_ceil(8) as usize;
        if left > 0 {
            let four = ((self.held << (32 - self.bits)) as u32).to_be_bytes();
            self.out[self.at..self.at + left].copy_from_slice(&four[..left]);
        }
        self.at + left
    }
}

pub fn write(list: &[u32], out: &mut [u8]) -> (u32, u32) {
    let length = match check_list(list) {
        Ok(length) => length,
        Err(fault) => return (fault, 0),
    };
    if length > out.len() {
        return (9, 0);
    }
    let mut file = Packer::new(&mut out[..length]);
    file.put(25, list[0] << 17 | list[1] << 10 | list[2]);
    let mut rest = &list[3..];
    while let Some((leg, after)) = rest.split_first_chunk::<4>() {
        file.put(28, leg[0] << 22 | leg[1] << 16 | leg[2] << 4 | leg[3]);
        let (bands, after) = after.split_at(2 * leg[3] as usize);
        for band in bands.chunks_exact(2) {
            file.put(28, band[0] << 16 | band[1]);
        }
        rest = after;
    }
    file.finish();
    (0, length as u32)
}

// The network, held on the stack.

#[derive(Clone, Copy, Default)]
pub struct Leg {
    pub from: u8,
    pub to: u8,
    pub time: u16,
    pub bands: u8,
    pub starts: [u16; 8],
    pub tolls: [u16; 8],
}

pub struct Net {
    pub places: usize,
    pub count: usize,
    pub legs: [Leg; 512],
    /// Leg numbers by from-place: those of place p are `out[first[p]..first[p + 1]]`.
    pub first: [u16; 65],
    pub out: [u16; 512],
}

impl Net {
    pub fn legs(&self) -> &[Leg] {
        &self.legs[..self.count]
    }

    pub fn from(&self, place: usize) -> &[u16] {
        &self.out[self.first[place] as usize..self.first[place + 1] as usize]
    }

    fn sort_by_place(&mut self) {
        for k in 0..self.count {
            self.first[self.legs[k].from as usize + 1] += 1;
        }
        for place in 0..64 {
            self.first[place + 1] += self.first[place];
        }
        let mut next = self.first;
        for k in 0..self.count {
            let place = self.legs[k].from as usize;
            self.out[next[place] as usize] = k as u16;
            next[place] += 1;
        }
    }
}

impl Leg {
    #[inline]
    fn toll_at(&self, minute: usize) -> u32 {
        let later = self.starts[..self.bands as usize].iter().filter(|&&s| s as usize <= minute).count();
        self.tolls[later - 1] as u32
    }
}

/// The network of a file, or its fault.
pub fn decode(file: &[u8]) -> Result<Net, u32> {
    check_by_groups(file)?;
    let top = take(file, 0, 25);
    let count = (top & 1_023) as usize;
    let mut net =
        Net { places: (top >> 10 & 127) as usize, count, legs: [Leg::default(); 512], first: [0; 65], out: [0; 512] };
    let mut at = 25;
    for leg in &mut net.legs[..count] {
        let all = take(file, at, 28);
        at += 28;
        leg.from = (all >> 22) as u8;
        leg.to = (all >> 16 & 63) as u8;
        leg.time = (all >> 4 & 4_095) as u16;
        leg.bands = (all & 15) as u8;
        for band in 0..leg.bands as usize {
            let both = take(file, at, 28);
            at += 28;
            leg.starts[band] = (both >> 16) as u16;
            leg.tolls[band] = both as u16;
        }
    }
    net.sort_by_place();
    Ok(net)
}

// The minute table: whole rows along legs, only from places whose row has changed, and only from the first column that did.

/// How many columns are tested at a time.
const STRETCH: usize = 64;

/// May a ride lower a cell of these? A sum that wraps around passes for one that does.
#[inline]
fn may_lower(cells: &[u32], values: &[u32], add: u32) -> bool {
    cells.iter().zip(values).fold(false, |any, (&cell, &value)| any | (value.wrapping_add(add) < cell))
}

/// The first of these cells that a ride lowers.
#[inline]
fn first_lower(cells: &[u32], values: &[u32], add: u32) -> Option<usize> {
    for (k, (some, from)) in cells.chunks(STRETCH).zip(values.chunks(STRETCH)).enumerate() {
        if may_lower(some, from, add) {
            let lowers = |(&cell, &value): (&u32, &u32)| u64::from(value) + u64::from(add) < u64::from(cell);
            if let Some(column) = some.iter().zip(from).position(lowers) {
                return Some(k * STRETCH + column);
            }
        }
    }
    None
}

#[inline]
fn lower(cells: &mut [u32], values: &[u32], add: u32) {
    for (cell, &value) in cells.iter_mut().zip(values) {
        *cell = value.saturating_add(add).min(*cell);
    }
}

/// Waiting costs nothing: a running minimum from a column on, kept in the row and in a copy.
fn settle(row: &mut [u32], from: usize, copy: &mut [u32]) {
    let mut least = row[from.saturating_sub(1)];
    for (cell, kept) in row[from..].iter_mut().zip(&mut copy[from..]) {
        least = least.min(*cell);
        *cell = least;
        *kept = least;
    }
}

/// A row lowered along one leg from the columns not before `from`: the first column that fell, or the width.
fn ride(leg: &Leg, source: &[u32], from: usize, target: &mut [u32], earliest: usize) -> usize {
    let width = source.len();
    let time = leg.time as usize;
    let bands = leg.bands as usize;
    let mut first = width;
    for band in 0..bands {
        let low = (leg.starts[band] as usize).saturating_sub(earliest).max(from);
        let next = if band + 1 < bands { leg.starts[band + 1] as usize } else { 2_880 };
        let high = next.saturating_sub(earliest).min(width.saturating_sub(time));
        if low < high {
            let add = 64 * leg.tolls[band] as u32 + 1;
            let (cells, values) = (&mut target[low + time..high + time], &source[low..high]);
            if let Some(column) = first_lower(cells, values, add) {
                lower(&mut cells[column..], &values[column..], add);
                first = first.min(low + time + column);
            }
        }
    }
    first
}

/// The next place, from p on and around, that has something new to pass on.
fn next_new(low: &[usize], place: usize, width: usize) -> Option<usize> {
    let ahead = low[place..].iter().position(|&column| column < width).map(|k| place + k);
    ahead.or_else(|| low[..place].iter().position(|&column| column < width))
}

/// Fills the table.
pub fn fill(net: &Net, query: &Query, cells: &mut [u32]) {
    let width = query.window();
    let earliest = query.earliest as usize;
    cells[..net.places * width].fill(NONE);
    let start = query.start as usize;
    cells[start * width..(start + 1) * width].fill(0);
    let mut low = [width; 64];
    let low = &mut low[..net.places];
    low[start] = 0;
    let mut copy = [0u32; 2_880];
    let copy = &mut copy[..width];
    let mut next = Some(start);
    while let Some(place) = next {
        let from = std::mem::replace(&mut low[place], width);
        settle(&mut cells[place * width..(place + 1) * width], from, copy);
        for &number in net.from(place).iter().rev() {
            let leg = &net.legs[number as usize];
            let to = leg.to as usize;
            let first = ride(leg, copy, from, &mut cells[to * width..(to + 1) * width], earliest);
            low[to] = low[to].min(first);
        }
        next = next_new(low, place, width);
    }
}

// The plan call.

/// Tests 6, 7 and 8, then fills the table.
fn table_for(net: &[u8], query: &Query, cells: &mut [u32]) -> Result<Net, u32> {
    let net = decode(net)?;
    if let Some(fault) = query.fault(net.places) {
        return Err(fault);
    }
    if cells.len() < net.places * query.window() {
        return Err(8);
    }
    fill(&net, query, cells);
    Ok(net)
}

/// The first column of a falling row whose cell satisfies a test that stays true.
fn first_column(row: &[u32], test: impl Fn(u32) -> bool) -> usize {
    row.partition_point(|&cell| !test(cell))
}

/// The named plan from a filled table, the last leg first: leg and departure. The number of legs and the cost.
pub fn walk_back(net: &Net, query: &Query, cells: &[u32], back: &mut [(u16, u16); 64]) -> Option<(usize, u32)> {
    let width = query.window();
    let earliest = query.earliest as usize;
    let row = |place: usize| &cells[place * width..(place + 1) * width];
    let mut place = query.end as usize;
    let last = row(place)[width - 1];
    if last == NONE {
        return None;
    }
    let cost = last / 64;
    let mut column = first_column(row(place), |cell| cell / 64 <= cost);
    let mut cell = row(place)[column];
    let mut legs = 0;
    while cell % 64 > 0 {
        let (number, departure) = last_leg(net, row, place, column, cell, earliest);
        back[legs] = (number as u16, (departure + earliest) as u16);
        legs += 1;
        place = net.legs[number].from as usize;
        cell = row(place)[departure];
        column = first_column(row(place), |c| c <= cell);
    }
    Some((legs, cost))
}

fn last_leg<'a>(
    net: &Net,
    row: impl Fn(usize) -> &'a [u32],
    place: usize,
    column: usize,
    cell: u32,
    earliest: usize,
) -> (usize, usize) {
    for (number, leg) in net.legs().iter().enumerate() {
        let time = leg.time as usize;
        if leg.to as usize != place || time > column {
            continue;
        }
        let departure = column - time;
        let before = row(leg.from as usize)[departure];
        if before != NONE && before + 64 * leg.toll_at(departure + earliest) + 1 == cell {
            return (number, departure);
        }
    }
    unreachable!("a cell that no leg explains")
}

fn put_plan(query: &Query, verdict: u32, cost: u32, back: &[(u16, u16)], out: &mut [u8]) -> Option<usize> {
    let length = (89 + 21 * back.len()).div_ceil(8);
    let mut file = Packer::new(out.get_mut(..length)?);
    file.put(8, 1);
    file.put(13, verdict << 12 | query.start << 6 | query.end);
    file.put(24, query.earliest << 12 | query.latest);
    file.put(32, cost);
    file.put(12, back.len() as u32);
    for &(leg, departure) in back.iter().rev() {
        file.put(21, (leg as u32) << 12 | departure as u32);
    }
    Some(file.finish())
}

pub fn plan(net: &[u8], query: &Query, cells: &mut [u32], out: &mut [u8]) -> (u32, u32) {
    let net = match table_for(net, query, cells) {
        Ok(net) => net,
        Err(fault) => return (fault, 0),
    };
    let mut back = [(0, 0); 64];
    let (answer, put) = match walk_back(&net, query, cells, &mut back) {
        Some((legs, cost)) => (0, put_plan(query, 1, cost, &back[..legs], out)),
        None => (10, put_plan(query, 0, 0, &[], out)),
    };
    put.map_or((9, 0), |length| (answer, length as u32))
}

// The sheet call.

/// Shows each column where the cost first appears or falls.
fn steps(row: &[u32], mut show: impl FnMut(usize, u32)) {
    let mut held = NONE;
    for (column, &cell) in row.iter().enumerate() {
        if cell != held {
            if held == NONE || cell / 64 < held / 64 {
                show(column, cell / 64);
            }
            held = cell;
        }
    }
}

pub fn sheet(net: &[u8], query: &Query, cells: &mut [u32], out: &mut [u8]) -> (u32, u32) {
    let net = match table_for(net, query, cells) {
        Ok(net) => net,
        Err(fault) => return (fault, 0),
    };
    let width = query.window();
    let mut counts = [0u32; 64];
    let mut bits = 15;
    for place in 0..net.places {
        steps(&cells[place * width..(place + 1) * width], |_, _| counts[place] += 1);
        bits += 12 + 44 * counts[place] as usize;
    }
    let Some(out) = out.get_mut(..bits.div_ceil(8)) else { return (9, 0) };
    let mut file = Packer::new(out);
    file.put(15, 1 << 7 | net.places as u32);
    for place in 0..net.places {
        file.put(12, counts[place]);
        steps(&cells[place * width..(place + 1) * width], |column, cost| {
            file.put(12, column as u32 + query.earliest);
            file.put(32, cost);
        });
    }
    let length = file.finish();
    let none = cells[query.end as usize * width + width - 1] == NONE;
    (if none { 10 } else { 0 }, length as u32)
}

// The gate.

/// A sheet that was judged: where each place's steps begin, and how many they are.
struct Steps<'a> {
    file: &'a [u8],
    at: [usize; 64],
    count: [usize; 64],
}

impl Steps<'_> {
    #[inline(always)]
    fn step(&self, place: usize, k: usize) -> (usize, u64) {
        let both = take(self.file, self.at[place] + 44 * k, 44);
        ((both >> 32) as usize, both & 0xFFFF_FFFF)
    }
}

fn judge_sheet<'a>(file: &'a [u8], places: usize, query: &Query) -> Option<Steps<'a>> {
    let bits = file.len() * 8;
    if bits < 15 || take(file, 0, 15) != 1 << 7 | places as u64 {
        return None;
    }
    let mut steps = Steps { file, at: [0; 64], count: [0; 64] };
    let mut at = 15;
    for place in 0..places {
        if at + 12 > bits {
            return None;
        }
        let count = take(file, at, 12) as usize;
        at += 12;
        if count > 2_880 || at + 44 * count > bits {
            return None;
        }
        steps.at[place] = at;
        steps.count[place] = count;
        let (mut least, mut most) = (query.earliest as usize, 1 << 32);
        for k in 0..count {
            let (minute, cost) = steps.step(place, k);
            if minute < least || minute > query.latest as usize || cost >= most {
                return None;
            }
            least = minute + 1;
            most = cost;
        }
        at += 44 * count;
    }
    clean_tail(file, at).then_some(steps)
}

/// Rule (b) along one leg, at the steps of its from-place and at its band starts, by a walk along all of them.
fn leg_walks(leg: &Leg, steps: &Steps, latest: usize) -> bool {
    let (from, to, time) = (leg.from as usize, leg.to as usize, leg.time as usize);
    let (count, bands) = (steps.count[from], leg.bands as usize);
    if count == 0 {
        return true;
    }
    let (mut step, mut band, mut reached) = (0, 0, 0);
    let (mut minute, mut value) = steps.step(from, 0);
    let mut target = u64::MAX;
    let mut next_target = if steps.count[to] > 0 { steps.step(to, 0) } else { (usize::MAX, 0) };
    loop {
        if minute + time > latest {
            return true;
        }
        while band + 1 < bands && leg.starts[band + 1] as usize <= minute {
            band += 1;
        }
        while next_target.0 <= minute + time {
            target = next_target.1;
            reached += 1;
            next_target = if reached < steps.count[to] { steps.step(to, reached) } else { (usize::MAX, 0) };
        }
        if target > value + leg.tolls[band] as u64 {
            return false;
        }
        let next_step = if step + 1 < count { steps.step(from, step + 1) } else { (usize::MAX, 0) };
        let next_band = if band + 1 < bands { leg.starts[band + 1] as usize } else { usize::MAX };
        minute = next_step.0.min(next_band);
        if minute == usize::MAX {
            return true;
        }
        if next_step.0 == minute {
            step += 1;
            value = next_step.1;
        }
    }
}

/// How many steps a place's card has room for.
const SLOTS: usize = 16;
/// The minute of a slot that is not taken.
const NEVER: u32 = 4_096;

/// A few slots of minutes and cents: the steps of a place, or the bands of a leg.
#[derive(Clone, Copy)]
struct Card<const N: usize> {
    minutes: [u32; N],
    prices: [u32; N],
}

impl<const N: usize> Card<N> {
    const BLANK: Card<N> = Card { minutes: [NEVER; N], prices: [0; N] };

    /// How many slots have begun: each adds 1 or 0, without a branch.
    #[inline(always)]
    fn begun(&self, minute: u32) -> usize {
        self.minutes.iter().map(|&slot| (NEVER + minute - slot) / NEVER).sum::<u32>() as usize
    }

    /// The cents of the last slot that has begun.
    #[inline(always)]
    fn look(&self, minute: u32) -> Option<u64> {
        self.begun(minute).checked_sub(1).map(|last| u64::from(self.prices[last % N]))
    }
}

/// A card for each place whose steps it has room for.
fn lay(steps: &Steps, places: usize) -> [Card<SLOTS>; 64] {
    let mut cards = [Card::BLANK; 64];
    for (place, card) in cards[..places].iter_mut().enumerate() {
        if steps.count[place] <= SLOTS {
            for k in 0..steps.count[place] {
                let (minute, cost) = steps.step(place, k);
                card.minutes[k % SLOTS] = minute as u32;
                card.prices[k % SLOTS] = cost as u32;
            }
        }
    }
    cards
}

/// Rule (b) along one leg: by cards where they have room for the steps of both places.
fn leg_obeys(leg: &Leg, steps: &Steps, cards: &[Card<SLOTS>; 64], latest: usize) -> bool {
    let (from, to) = (leg.from as usize, leg.to as usize);
    if steps.count[from].max(steps.count[to]) > SLOTS {
        return leg_walks(leg, steps, latest);
    }
    let mut bands = Card::<8>::BLANK;
    for k in 0..leg.bands as usize {
        bands.minutes[k] = u32::from(leg.starts[k]);
        bands.prices[k] = u32::from(leg.tolls[k]);
    }
    let (here, there, time) = (&cards[from % 64], &cards[to % 64], u32::from(leg.time));
    let Some(last) = (latest as u32).checked_sub(time) else {
        return true;
    };
    let covered = |departure: u32, need: u64| there.look(departure + time).is_some_and(|value| value <= need);
    let steps_obey = (0..here.begun(last)).all(|k| {
        let departure = here.minutes[k % SLOTS];
        covered(departure, u64::from(here.prices[k % SLOTS]) + bands.look(departure).unwrap_or(0))
    });
    steps_obey
        && (0..bands.begun(last)).all(|k| {
            let (departure, toll) = (bands.minutes[k % 8], u64::from(bands.prices[k % 8]));
            here.look(departure).is_none_or(|value| covered(departure, value + toll))
        })
}

/// A plan file that was judged.
struct PlanHead {
    verdict: bool,
    query: Query,
    cost: u64,
    legs: usize,
}

fn judge_plan(file: &[u8]) -> Option<PlanHead> {
    let bits = file.len() * 8;
    if bits < 89 || take(file, 0, 8) != 1 {
        return None;
    }
    let verdict = take(file, 8, 1) == 1;
    let query = Query {
        start: take(file, 9, 6) as u32,
        end: take(file, 15, 6) as u32,
        earliest: take(file, 21, 12) as u32,
        latest: take(file, 33, 12) as u32,
    };
    let (cost, legs) = (take(file, 45, 32), take(file, 77, 12) as usize);
    if legs > 63 || !verdict && (cost > 0 || legs > 0) {
        return None;
    }
    let end = 89 + 21 * legs;
    (end <= bits && clean_tail(file, end)).then_some(PlanHead { verdict, query, cost, legs })
}

fn plan_is_sound(net: &Net, file: &[u8], plan: &PlanHead) -> bool {
    let (mut place, mut minute, mut sum) = (plan.query.start as usize, plan.query.earliest as usize, 0);
    for k in 0..plan.legs {
        let both = take(file, 89 + 21 * k, 21) as usize;
        let (number, departure) = (both >> 12, both & 4_095);
        if number >= net.count {
            return false;
        }
        let leg = &net.legs[number];
        if leg.from as usize != place || departure < minute {
            return false;
        }
        place = leg.to as usize;
        minute = departure + leg.time as usize;
        sum += leg.toll_at(departure) as u64;
    }
    place == plan.query.end as usize && minute <= plan.query.latest as usize && sum == plan.cost
}

pub fn gate(net: &[u8], plan: &[u8], sheet: &[u8]) -> u32 {
    let net = match decode(net) {
        Ok(net) => net,
        Err(fault) => return fault,
    };
    let Some(head) = judge_plan(plan) else { return 11 };
    let query = &head.query;
    if let Some(fault) = query.fault(net.places) {
        return fault;
    }
    if head.verdict && !plan_is_sound(&net, plan, &head) {
        return 12;
    }
    let Some(steps) = judge_sheet(sheet, net.places, query) else { return 13 };
    let start = query.start as usize;
    if steps.count[start] == 0 || steps.step(start, 0) != (query.earliest as usize, 0) {
        return 14;
    }
    let cards = lay(&steps, net.places);
    if !net.legs().iter().all(|leg| leg_obeys(leg, &steps, &cards, query.latest as usize)) {
        return 14;
    }
    let end = query.end as usize;
    let value = steps.count[end].checked_sub(1).map(|last| steps.step(end, last).1);
    if value == head.verdict.then_some(head.cost) {
        0
    } else {
        15
    }
}
