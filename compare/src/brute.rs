//! Every plan of a small network, one after another.

use crate::network::Network;
use crate::plan::{arrival_of, cost, rank, Query, Ride};
use crate::table::{Cell, Table};
use std::cmp::Ordering;

/// Shows `visit` each plan from the query's start inside the window, with the place where it ends
/// and its arrival, up to `most` legs. The empty plan comes first.
pub fn every_plan(net: &Network, query: &Query, most: usize, visit: &mut dyn FnMut(&[Ride], usize, u32)) {
    let mut plan = Vec::new();
    grow(net, query, most, &mut plan, query.start as usize, query.earliest, visit);
}

fn grow(
    net: &Network,
    query: &Query,
    most: usize,
    plan: &mut Vec<Ride>,
    place: usize,
    minute: u32,
    visit: &mut dyn FnMut(&[Ride], usize, u32),
) {
    visit(plan, place, minute);
    if plan.len() == most {
        return;
    }
    for (number, leg) in net.legs.iter().enumerate() {
        if leg.from != place {
            continue;
        }
        for departure in minute..=query.latest {
            let ride = Ride { leg: number, departure };
            let arrival = arrival_of(net, ride);
            if arrival > query.latest {
                break;
            }
            plan.push(ride);
            grow(net, query, most, plan, leg.to, arrival, visit);
            plan.pop();
        }
    }
}

/// The plan to name, the whole minute table, and how many plans were seen.
pub fn solve(net: &Network, query: &Query, most: usize) -> (Option<Vec<Ride>>, Table, u64) {
    let mut best: Option<Vec<Ride>> = None;
    let mut table = Table::empty(net.places, query);
    let mut seen = 0;
    every_plan(net, query, most, &mut |plan, place, arrival| {
        seen += 1;
        let cell = Cell { cost: cost(net, plan) as u32, legs: plan.len() as u32 };
        for minute in arrival..=query.latest {
            table.lower(place, minute, cell);
        }
        if place == query.end as usize {
            let better = match &best {
                None => true,
                Some(held) => rank(net, query, plan, held) == Ordering::Less,
            };
            if better {
                best = Some(plan.to_vec());
            }
        }
    });
    (best, table, seen)
}
