//! Networks, queries and buffers to try.

use crate::dice::Dice;
use crate::network::{Band, Leg, Network, LAST_MINUTE};
use crate::plan::Query;

/// What a made network looks like.
#[derive(Clone, Copy)]
pub struct Shape {
    pub places: u32,
    pub legs: u32,
    pub bands: u32,
    /// Driving times are at most this.
    pub time: u32,
    /// Tolls are at most this.
    pub toll: u32,
    /// Minutes of interest: band starts and windows lie in `from ..= from + window`.
    pub from: u32,
    pub window: u32,
}

pub fn bands(dice: &mut Dice, shape: &Shape, count: u32) -> Vec<Band> {
    let mut starts = vec![0];
    let last = LAST_MINUTE.min(shape.from + shape.window);
    for _ in 1..count {
        starts.push(if dice.once_in(12) { dice.between(0, LAST_MINUTE) } else { dice.between(shape.from, last) });
    }
    starts.sort_unstable();
    starts.dedup();
    starts.into_iter().map(|start| Band { start, toll: toll(dice, shape) }).collect()
}

fn toll(dice: &mut Dice, shape: &Shape) -> u32 {
    match dice.below(8) {
        0 => 0,
        1 => shape.toll,
        _ => dice.between(0, shape.toll),
    }
}

fn time(dice: &mut Dice, shape: &Shape) -> u32 {
    match dice.below(6) {
        0 => 0,
        1 if dice.once_in(20) => dice.pick(&[2_878, 2_879, 1_440]),
        _ => dice.between(0, shape.time),
    }
}

/// A network of a shape; legs may be parallel or lead back to their own place.
pub fn network(dice: &mut Dice, shape: &Shape) -> Network {
    let places = shape.places as usize;
    let mut legs: Vec<Leg> = Vec::new();
    for _ in 0..shape.legs {
        if !legs.is_empty() && dice.once_in(8) {
            let twin = legs[dice.below(legs.len())].clone();
            legs.push(twin);
            continue;
        }
        let from = dice.below(places);
        let to = if dice.once_in(10) { from } else { dice.below(places) };
        let count = dice.between(1, shape.bands);
        legs.push(Leg { from, to, time: time(dice, shape), bands: bands(dice, shape, count) });
    }
    Network { places, legs }
}

/// A window's first minute, often at one end of the two days.
fn first_minute(dice: &mut Dice, window: u32) -> u32 {
    match dice.below(4) {
        0 => 0,
        1 => LAST_MINUTE - window,
        _ => dice.between(0, LAST_MINUTE - window),
    }
}

/// Few places, few minutes, many ties: every plan can be enumerated.
pub fn tiny(dice: &mut Dice) -> Shape {
    let window = dice.between(0, 7);
    Shape {
        places: dice.between(1, 4),
        legs: dice.between(0, 6),
        bands: dice.between(1, 3),
        time: dice.pick(&[0, 1, 2, 3]),
        toll: dice.pick(&[0, 1, 2, 3]),
        from: first_minute(dice, window),
        window,
    }
}

/// Up to a dozen places and an hour or two.
pub fn small(dice: &mut Dice) -> Shape {
    let window = dice.between(0, 120);
    Shape {
        places: dice.between(1, 12),
        legs: dice.between(0, 30),
        bands: dice.between(1, 8),
        time: dice.pick(&[0, 1, 5, 20]),
        toll: dice.pick(&[0, 1, 3, 500, 65_535]),
        from: first_minute(dice, window),
        window,
    }
}

pub fn middle(dice: &mut Dice) -> Shape {
    let window = dice.between(0, 600);
    Shape {
        places: dice.between(1, 64),
        legs: dice.between(0, 150),
        bands: dice.between(1, 8),
        time: dice.pick(&[0, 1, 10, 60]),
        toll: dice.pick(&[0, 1, 3, 500, 65_535]),
        from: first_minute(dice, window),
        window,
    }
}

/// 64 places, 512 legs with eight bands each: 16,132 bytes.
pub fn largest(dice: &mut Dice) -> Network {
    let shape = Shape { places: 64, legs: 512, bands: 8, time: 90, toll: 65_535, from: 0, window: LAST_MINUTE };
    let mut net = network(dice, &shape);
    for leg in &mut net.legs {
        leg.bands = eight_bands(dice);
    }
    net
}

pub fn eight_bands(dice: &mut Dice) -> Vec<Band> {
    let mut starts = vec![0];
    while starts.len() < 8 {
        let start = dice.between(1, LAST_MINUTE);
        if !starts.contains(&start) {
            starts.push(start);
        }
    }
    starts.sort_unstable();
    starts.into_iter().map(|start| Band { start, toll: dice.between(0, 65_535) }).collect()
}

/// Places in one line, so that the only plan has all the legs; some lines are dear, some free, some close into a circle.
pub fn chain(dice: &mut Dice, places: usize, time: u32, toll: u32) -> Network {
    let mut legs = Vec::new();
    let mut order: Vec<usize> = (0..places).collect();
    for k in (1..places).rev() {
        order.swap(k, dice.below(k + 1));
    }
    let circle = dice.once_in(3);
    for k in 0..places {
        if k + 1 == places && !circle {
            break;
        }
        let bands = vec![Band { start: 0, toll }];
        legs.push(Leg { from: order[k], to: order[(k + 1) % places], time, bands });
    }
    for k in (1..legs.len()).rev() {
        legs.swap(k, dice.below(k + 1));
    }
    Network { places, legs }
}

/// Two to five places in a row, with parallel legs whose tolls fall in the course of the window: places with many steps, often about sixteen.
pub fn stairs(dice: &mut Dice, window: u32) -> Network {
    let places = if dice.once_in(2) { 2 } else { 3 + dice.below(3) };
    let mut legs = Vec::new();
    for from in 0..places - 1 {
        let falls = if dice.once_in(3) { dice.between(1, 60) } else { dice.between(14, 18) };
        let mut minutes: Vec<u32> = (0..falls).map(|_| dice.between(0, window)).collect();
        minutes.sort_unstable();
        minutes.dedup();
        let time = dice.between(0, 3);
        for some in minutes.chunks(7) {
            let mut bands = vec![Band { start: 0, toll: 65_535 }];
            let falling = |&start: &u32| Band { start, toll: 60_000 - 5 * start - dice.between(0, 4) };
            bands.extend(some.iter().filter(|&&start| start > 0).map(falling));
            legs.push(Leg { from, to: from + 1, time, bands });
        }
    }
    for k in (1..legs.len()).rev() {
        legs.swap(k, dice.below(k + 1));
    }
    Network { places, legs }
}

/// A query inside the minutes of interest.
pub fn query(dice: &mut Dice, net: &Network, from: u32, window: u32) -> Query {
    let last = LAST_MINUTE.min(from + window);
    let (a, b) = (dice.between(from, last), dice.between(from, last));
    let (earliest, latest) = match dice.below(4) {
        0 => (from, last),
        1 => (from, b),
        _ => (a.min(b), a.max(b)),
    };
    Query { start: dice.below(net.places) as u32, end: dice.below(net.places) as u32, earliest, latest }
}

/// A query with something wrong in it, as often two things.
pub fn bad_query(dice: &mut Dice, good: &Query, places: usize) -> Query {
    let mut query = *good;
    for _ in 0..dice.between(1, 2) {
        let place = dice.pick(&[places as u32, places as u32 + 1, 63, 64, 127, 1 << 16, 1 << 31, u32::MAX]);
        let minute = dice.pick(&[2_879, 2_880, 2_881, 4_095, 4_096, 1 << 16, 1 << 31, u32::MAX]);
        match dice.below(5) {
            0 => query.start = place,
            1 => query.end = place,
            2 => query.earliest = minute,
            3 => query.latest = minute,
            _ => std::mem::swap(&mut query.earliest, &mut query.latest),
        }
    }
    query
}

/// Room around what is needed: exact, one short, one long, none, more.
pub fn rooms(dice: &mut Dice, need: usize) -> [usize; 5] {
    [need, need.saturating_sub(1), need + 1, 0, need + 2 + dice.below(40)]
}

pub fn bytes(dice: &mut Dice, count: usize) -> Vec<u8> {
    let mut out = Vec::with_capacity(count + 8);
    while out.len() < count {
        out.extend_from_slice(&dice.next().to_le_bytes());
    }
    out.truncate(count);
    out
}

pub fn numbers(dice: &mut Dice, count: usize) -> Vec<u32> {
    (0..count).map(|_| dice.next() as u32).collect()
}
