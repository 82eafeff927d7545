//! Other ways to plan, in plain Rust: what the plan call is measured against.

use crate::plain::Net;
use crate::plan::Query;
use std::cmp::Reverse;
use std::collections::BinaryHeap;

const NONE: u32 = u32::MAX;

/// The weight of a leg at a minute: 64 × toll + 1.
fn weights(net: &Net, query: &Query) -> Vec<Vec<u32>> {
    let width = query.window();
    let row = |leg: &crate::plain::Leg| {
        let mut out = vec![0; width];
        for band in 0..leg.bands as usize {
            let from = (leg.starts[band] as usize).saturating_sub(query.earliest as usize).min(width);
            out[from..].fill(64 * leg.tolls[band] as u32 + 1);
        }
        out
    };
    net.legs().iter().map(row).collect()
}

/// Dijkstra's algorithm with a binary heap over the graph of places and minutes; an edge for each wait of
/// one minute and for each departure. With `stop` it ends when the end place is first taken from the heap.
pub fn dijkstra(net: &Net, query: &Query, cells: &mut [u32], stop: bool) -> u32 {
    let width = query.window();
    let weights = weights(net, query);
    cells[..net.places * width].fill(NONE);
    let mut heap = BinaryHeap::new();
    let first = query.start as usize * width;
    cells[first] = 0;
    heap.push(Reverse((0u32, first as u32)));
    while let Some(Reverse((value, node))) = heap.pop() {
        let node = node as usize;
        if value > cells[node] {
            continue;
        }
        let (place, column) = (node / width, node % width);
        if stop && place == query.end as usize {
            return value / 64;
        }
        let mut reach = |to: usize, value: u32| {
            if value < cells[to] {
                cells[to] = value;
                heap.push(Reverse((value, to as u32)));
            }
        };
        if column + 1 < width {
            reach(node + 1, value);
        }
        for &number in net.from(place) {
            let leg = &net.legs[number as usize];
            let arrival = column + leg.time as usize;
            if arrival < width {
                reach(leg.to as usize * width + arrival, value + weights[number as usize][column]);
            }
        }
    }
    cells[query.end as usize * width + width - 1] / 64
}

/// The same, but a wait is run through to the next minute that is already settled, without the heap.
pub fn dijkstra_without_wait_edges(net: &Net, query: &Query, cells: &mut [u32]) {
    let width = query.window();
    let weights = weights(net, query);
    cells[..net.places * width].fill(NONE);
    let mut settled = vec![width; net.places];
    let mut heap = BinaryHeap::new();
    let first = query.start as usize * width;
    cells[first] = 0;
    heap.push(Reverse((0u32, first as u32)));
    while let Some(Reverse((value, node))) = heap.pop() {
        let (place, column) = (node as usize / width, node as usize % width);
        let until = settled[place];
        if column >= until {
            continue;
        }
        settled[place] = column;
        cells[place * width + column..place * width + until].fill(value);
        for &number in net.from(place) {
            let leg = &net.legs[number as usize];
            let to = leg.to as usize;
            for departure in column..until {
                let arrival = departure + leg.time as usize;
                if arrival >= settled[to] {
                    break;
                }
                let value = value + weights[number as usize][departure];
                let cell = &mut cells[to * width + arrival];
                if value < *cell {
                    *cell = value;
                    heap.push(Reverse((value, (to * width + arrival) as u32)));
                }
            }
        }
    }
}

/// One minute after another: waits, departures without driving time until nothing falls, departures.
pub fn minute_by_minute(net: &Net, query: &Query, cells: &mut [u32]) {
    let width = query.window();
    let earliest = query.earliest as usize;
    cells[..net.places * width].fill(NONE);
    cells[query.start as usize * width] = 0;
    let (at_once, driving): (Vec<_>, Vec<_>) = net.legs().iter().partition(|leg| leg.time == 0);
    let mut bands_at_once = vec![0; at_once.len()];
    let mut bands_driving = vec![0; driving.len()];
    for column in 0..width {
        if column > 0 {
            for place in 0..net.places {
                let before = cells[place * width + column - 1];
                let cell = &mut cells[place * width + column];
                *cell = before.min(*cell);
            }
        }
        let minute = earliest + column;
        while depart(&at_once, &mut bands_at_once, cells, width, column, minute) {}
        depart(&driving, &mut bands_driving, cells, width, column, minute);
    }
}

fn depart(
    legs: &[&crate::plain::Leg],
    bands: &mut [usize],
    cells: &mut [u32],
    width: usize,
    column: usize,
    minute: usize,
) -> bool {
    let mut fell = false;
    for (leg, band) in legs.iter().zip(bands) {
        while *band + 1 < leg.bands as usize && leg.starts[*band + 1] as usize <= minute {
            *band += 1;
        }
        let arrival = column + leg.time as usize;
        let value = cells[leg.from as usize * width + column];
        if arrival < width && value != NONE {
            let value = value + 64 * leg.tolls[*band] as u32 + 1;
            let cell = &mut cells[leg.to as usize * width + arrival];
            if value < *cell {
                *cell = value;
                fell = true;
            }
        }
    }
    fell
}

// The two-step search of source 001, algorithms 2 to 4. A function of the arrival minute is a list of
// pieces, each with one cost; a piece is settled when its cost is known to be least.

#[derive(Clone, Copy)]
struct Piece {
    from: u32,
    to: u32,
    cost: u32,
    settled: bool,
}

/// Algorithm 2: the function of j lowered by what arrives along one leg from i.
fn update(target: &mut Vec<Piece>, source: &[Piece], leg: &crate::plain::Leg, latest: u32, spare: &mut Vec<Piece>) {
    let arriving = arriving(source, leg, latest);
    if arriving.is_empty() {
        return;
    }
    spare.clear();
    merge(target, &arriving, spare);
    std::mem::swap(target, spare);
}

/// The cost of arriving at each minute along one leg: the least cost so far, plus the toll.
fn arriving(source: &[Piece], leg: &crate::plain::Leg, latest: u32) -> Vec<Piece> {
    let mut out = Vec::new();
    let mut least = NONE;
    let mut band = 0;
    let bands = leg.bands as usize;
    let time = leg.time as u32;
    for piece in source {
        least = least.min(piece.cost);
        if least == NONE {
            continue;
        }
        let mut minute = piece.from;
        while minute <= piece.to && minute + time <= latest {
            while band + 1 < bands && leg.starts[band + 1] as u32 <= minute {
                band += 1;
            }
            let band_end = if band + 1 < bands { leg.starts[band + 1] as u32 - 1 } else { 2_879 };
            let to = piece.to.min(band_end).min(latest - time);
            let cost = least + leg.tolls[band] as u32;
            push(&mut out, Piece { from: minute + time, to: to + time, cost, settled: false });
            minute = to + 1;
        }
    }
    out
}

fn push(pieces: &mut Vec<Piece>, piece: Piece) {
    match pieces.last_mut() {
        Some(last) if last.cost == piece.cost && last.settled == piece.settled && last.to + 1 == piece.from => {
            last.to = piece.to;
        }
        _ => pieces.push(piece),
    }
}

/// The lesser of two functions; the second may cover less.
fn merge(held: &[Piece], new: &[Piece], out: &mut Vec<Piece>) {
    let mut k = 0;
    for piece in held {
        let mut minute = piece.from;
        while minute <= piece.to {
            while k < new.len() && new[k].to < minute {
                k += 1;
            }
            let mut part = Piece { from: minute, to: piece.to, ..*piece };
            if k < new.len() {
                if new[k].from > minute {
                    part.to = part.to.min(new[k].from - 1);
                } else {
                    part.to = part.to.min(new[k].to);
                    if new[k].cost < part.cost {
                        part.cost = new[k].cost;
                        part.settled = false;
                    }
                }
            }
            push(out, part);
            minute = part.to + 1;
        }
    }
}

/// The earliest arrival at each place.
fn earliest_arrivals(net: &Net, query: &Query) -> Vec<u32> {
    let mut first = vec![NONE; net.places];
    first[query.start as usize] = query.earliest;
    let mut heap = BinaryHeap::new();
    heap.push(Reverse((query.earliest, query.start as usize)));
    while let Some(Reverse((minute, place))) = heap.pop() {
        if minute > first[place] {
            continue;
        }
        for &number in net.from(place) {
            let leg = &net.legs[number as usize];
            let arrival = minute + leg.time as u32;
            if arrival <= query.latest && arrival < first[leg.to as usize] {
                first[leg.to as usize] = arrival;
                heap.push(Reverse((arrival, leg.to as usize)));
            }
        }
    }
    first
}

/// The unsettled piece of least cost.
fn next_piece(pieces: &[Piece]) -> Option<usize> {
    let open = pieces.iter().enumerate().filter(|(_, piece)| !piece.settled && piece.cost < NONE);
    open.min_by_key(|(_, piece)| piece.cost).map(|(k, _)| k)
}

/// What the search finds: the least cost, and the plan as (leg, departure), the last leg first.
pub struct Found {
    pub cost: u32,
    pub back: Vec<(usize, u32)>,
}

/// As published the search stops when the end place is first taken from the heap, and settles one piece at
/// a time. With `drop_later` a settled piece also settles the dearer pieces after it, which no plan needs.
#[derive(Clone, Copy)]
pub struct Search {
    pub stop: bool,
    pub drop_later: bool,
}

/// The two-step search.
pub fn two_step(net: &Net, query: &Query, how: Search) -> Option<Found> {
    let first = earliest_arrivals(net, query);
    let start = query.start as usize;
    let mut functions: Vec<Vec<Piece>> = (0..net.places)
        .map(|place| {
            let from = first[place];
            let cost = if place == start { 0 } else { NONE };
            let piece = Piece { from, to: query.latest, cost, settled: place == start };
            if from == NONE {
                Vec::new()
            } else {
                vec![piece]
            }
        })
        .collect();
    let mut spare = Vec::new();
    let mut heap = BinaryHeap::new();
    let mut place = start;
    while !how.stop || place != query.end as usize {
        for &number in net.from(place) {
            let leg = &net.legs[number as usize];
            let to = leg.to as usize;
            if to == place || first[to] == NONE {
                continue;
            }
            let mut target = std::mem::take(&mut functions[to]);
            update(&mut target, &functions[place], leg, query.latest, &mut spare);
            if let Some(k) = next_piece(&target) {
                heap.push(Reverse((target[k].cost, to)));
            }
            functions[to] = target;
        }
        if let Some(k) = next_piece(&functions[place]) {
            heap.push(Reverse((functions[place][k].cost, place)));
        }
        match settle_next(&mut functions, &mut heap, how.drop_later) {
            Some(next) => place = next,
            None => break,
        }
    }
    let cost = functions[query.end as usize].iter().map(|piece| piece.cost).min().filter(|&cost| cost < NONE)?;
    Some(Found { cost, back: select(net, query, &functions, cost) })
}

/// Takes the place with the least unsettled cost and settles that piece. Entries that are out of date are skipped.
fn settle_next(
    functions: &mut [Vec<Piece>],
    heap: &mut BinaryHeap<Reverse<(u32, usize)>>,
    drop_later: bool,
) -> Option<usize> {
    while let Some(Reverse((cost, place))) = heap.pop() {
        let Some(k) = next_piece(&functions[place]) else { continue };
        if functions[place][k].cost != cost {
            continue;
        }
        let end = if drop_later { functions[place].len() } else { k + 1 };
        functions[place][k..end].iter_mut().for_each(|piece| piece.settled = true);
        return Some(place);
    }
    None
}

/// Algorithm 4: from the end back, any leg that explains the cost.
fn select(net: &Net, query: &Query, functions: &[Vec<Piece>], cost: u32) -> Vec<(usize, u32)> {
    let mut place = query.end as usize;
    let mut back = Vec::new();
    let mut cost = cost;
    let Some(piece) = functions[place].iter().find(|piece| piece.cost == cost) else { return back };
    let mut minute = piece.from;
    while place != query.start as usize && back.len() < net.places {
        let step = net.legs().iter().enumerate().find_map(|(number, leg)| {
            let departure = minute.checked_sub(leg.time as u32)?;
            if leg.to as usize != place || departure < query.earliest {
                return None;
            }
            let paid = cost.checked_sub(toll(leg, departure))?;
            let piece = functions[leg.from as usize].iter().find(|p| p.from <= departure && p.cost == paid)?;
            Some((number, departure, leg.from as usize, piece.from, paid))
        });
        let Some((number, departure, from, arrival, paid)) = step else { return back };
        back.push((number, departure));
        (place, minute, cost) = (from, arrival, paid);
    }
    back
}

fn toll(leg: &crate::plain::Leg, minute: u32) -> u32 {
    let band = leg.starts[..leg.bands as usize].iter().rposition(|&s| s as u32 <= minute);
    leg.tolls[band.unwrap()] as u32
}
