//! The minute table, minute by minute, and the plan that it names.

use crate::network::Network;
use crate::plan::{Query, Ride};

pub const NONE: u32 = 4_294_967_295;

/// Cost first, then legs: the order of the fields is the order of cells.
#[derive(Clone, Copy, Debug, PartialEq, Eq, PartialOrd, Ord)]
pub struct Cell {
    pub cost: u32,
    pub legs: u32,
}

#[derive(Clone, PartialEq)]
pub struct Table {
    earliest: u32,
    window: usize,
    cells: Vec<Option<Cell>>,
}

impl Table {
    pub fn empty(places: usize, query: &Query) -> Table {
        let window = query.window();
        Table { earliest: query.earliest, window, cells: vec![None; places * window] }
    }

    fn index(&self, place: usize, minute: u32) -> usize {
        place * self.window + (minute - self.earliest) as usize
    }

    pub fn at(&self, place: usize, minute: u32) -> Option<Cell> {
        self.cells[self.index(place, minute)]
    }

    /// Lowers a cell; true if it changed.
    pub fn lower(&mut self, place: usize, minute: u32, to: Cell) -> bool {
        let index = self.index(place, minute);
        let falls = self.cells[index].is_none_or(|held| to < held);
        if falls {
            self.cells[index] = Some(to);
        }
        falls
    }

    /// The cells as the lent table holds them.
    pub fn numbers(&self) -> Vec<u32> {
        self.cells.iter().map(|cell| cell.map_or(NONE, |c| 64 * c.cost + c.legs)).collect()
    }
}

/// One minute after another: who waits, who drives without time, who leaves.
pub fn fill(net: &Network, query: &Query) -> Table {
    let mut table = Table::empty(net.places, query);
    table.lower(query.start as usize, query.earliest, Cell { cost: 0, legs: 0 });
    for minute in query.earliest..=query.latest {
        if minute > query.earliest {
            wait(net, &mut table, minute);
        }
        while depart(net, &mut table, minute, query.latest, true) {}
        depart(net, &mut table, minute, query.latest, false);
    }
    table
}

fn wait(net: &Network, table: &mut Table, minute: u32) {
    for place in 0..net.places {
        if let Some(cell) = table.at(place, minute - 1) {
            table.lower(place, minute, cell);
        }
    }
}

/// All departures of one minute, along legs without or with a driving time; true if a cell fell.
fn depart(net: &Network, table: &mut Table, minute: u32, latest: u32, at_once: bool) -> bool {
    let mut fell = false;
    for leg in &net.legs {
        let arrival = minute + leg.time;
        if (leg.time == 0) != at_once || arrival > latest {
            continue;
        }
        if let Some(cell) = table.at(leg.from, minute) {
            let cell = Cell { cost: cell.cost + leg.toll_at(minute), legs: cell.legs + 1 };
            fell |= table.lower(leg.to, arrival, cell);
        }
    }
    fell
}

/// The plan of the tie rule, from the last leg back to the first.
pub fn named_plan(net: &Network, query: &Query, table: &Table) -> Option<Vec<Ride>> {
    let mut place = query.end as usize;
    let least = table.at(place, query.latest)?.cost;
    let mut minute = first_minute(query, |t| table.at(place, t).is_some_and(|c| c.cost == least));
    let mut cell = table.at(place, minute).unwrap();
    let mut back = Vec::new();
    while cell.legs > 0 {
        let ride = last_ride(net, query, table, place, minute, cell);
        place = net.legs[ride.leg].from;
        cell = table.at(place, ride.departure).unwrap();
        minute = first_minute(query, |t| table.at(place, t) == Some(cell));
        back.push(ride);
    }
    back.reverse();
    Some(back)
}

fn first_minute(query: &Query, fits: impl Fn(u32) -> bool) -> u32 {
    (query.earliest..=query.latest).find(|&t| fits(t)).unwrap()
}

/// The lowest leg that arrives here at this minute and explains this cell.
fn last_ride(net: &Network, query: &Query, table: &Table, place: usize, minute: u32, cell: Cell) -> Ride {
    for (number, leg) in net.legs.iter().enumerate() {
        if leg.to != place || leg.time + query.earliest > minute {
            continue;
        }
        let departure = minute - leg.time;
        if let Some(before) = table.at(leg.from, departure) {
            if before.cost + leg.toll_at(departure) == cell.cost && before.legs + 1 == cell.legs {
                return Ride { leg: number, departure };
            }
        }
    }
    panic!("a cell that no leg explains");
}
