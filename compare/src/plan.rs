//! Queries, plans, the tie rule, and the plan file.

use crate::bits::{pack, BitReader};
use crate::network::{Network, LAST_MINUTE};
use std::cmp::Ordering;

pub const MOST_PLAN_LEGS: usize = 63;

#[derive(Clone, Copy, Debug, PartialEq)]
pub struct Query {
    pub start: u32,
    pub end: u32,
    pub earliest: u32,
    pub latest: u32,
}

impl Query {
    /// Answers 6 and 7.
    pub fn fault(&self, places: usize) -> Option<u32> {
        let place_out = self.start as usize >= places || self.end as usize >= places;
        if place_out || self.earliest > LAST_MINUTE || self.latest > LAST_MINUTE {
            return Some(6);
        }
        if self.earliest > self.latest {
            return Some(7);
        }
        None
    }

    pub fn window(&self) -> usize {
        (self.latest - self.earliest) as usize + 1
    }
}

#[derive(Clone, Copy, Debug, PartialEq)]
pub struct Ride {
    pub leg: usize,
    pub departure: u32,
}

pub fn arrival_of(net: &Network, ride: Ride) -> u32 {
    ride.departure + net.legs[ride.leg].time
}

/// Every leg of the plan is in the network.
pub fn known_legs(net: &Network, plan: &[Ride]) -> bool {
    plan.iter().all(|ride| ride.leg < net.legs.len())
}

pub fn cost(net: &Network, plan: &[Ride]) -> u64 {
    plan.iter().map(|ride| u64::from(net.legs[ride.leg].toll_at(ride.departure))).sum()
}

pub fn arrival(net: &Network, query: &Query, plan: &[Ride]) -> u32 {
    plan.last().map_or(query.earliest, |&ride| arrival_of(net, ride))
}

/// The legs are the network's and chain from start to end, in the window, each after the arrival before it.
pub fn feasible(net: &Network, query: &Query, plan: &[Ride]) -> bool {
    if !known_legs(net, plan) {
        return false;
    }
    let mut place = query.start as usize;
    let mut minute = query.earliest;
    for &ride in plan {
        if net.legs[ride.leg].from != place || ride.departure < minute {
            return false;
        }
        place = net.legs[ride.leg].to;
        minute = arrival_of(net, ride);
    }
    place == query.end as usize && minute <= query.latest
}

/// The tie rule: the lesser of two feasible plans is the one to name.
pub fn rank(net: &Network, query: &Query, a: &[Ride], b: &[Ride]) -> Ordering {
    let head = |plan: &[Ride]| (cost(net, plan), arrival(net, query, plan), plan.len());
    let back = |plan: &[Ride]| -> Vec<(u32, usize)> {
        plan.iter().rev().map(|&ride| (arrival_of(net, ride), ride.leg)).collect()
    };
    head(a).cmp(&head(b)).then_with(|| back(a).cmp(&back(b)))
}

/// A plan file as it stands, before it is judged.
#[derive(Clone, Debug)]
pub struct PlanFile {
    pub verdict: bool,
    pub query: Query,
    pub cost: u32,
    pub rides: Vec<Ride>,
}

impl PlanFile {
    pub fn none(query: Query) -> PlanFile {
        PlanFile { verdict: false, query, cost: 0, rides: Vec::new() }
    }

    pub fn of(query: Query, cost: u32, rides: Vec<Ride>) -> PlanFile {
        PlanFile { verdict: true, query, cost, rides }
    }

    pub fn bytes(&self) -> Vec<u8> {
        let mut fields = vec![
            (8, 1),
            (1, u32::from(self.verdict)),
            (6, self.query.start),
            (6, self.query.end),
            (12, self.query.earliest),
            (12, self.query.latest),
            (32, self.cost),
            (12, self.rides.len() as u32),
        ];
        for ride in &self.rides {
            fields.push((9, ride.leg as u32));
            fields.push((12, ride.departure));
        }
        pack(&fields)
    }

    /// The file, or nothing where the gate answers 11.
    pub fn read(bytes: &[u8]) -> Option<PlanFile> {
        let mut file = BitReader::new(bytes);
        if file.take(8)? != 1 {
            return None;
        }
        let verdict = file.take(1)? == 1;
        let query =
            Query { start: file.take(6)?, end: file.take(6)?, earliest: file.take(12)?, latest: file.take(12)? };
        let cost = file.take(32)?;
        let legs = file.take(12)? as usize;
        if legs > MOST_PLAN_LEGS || !verdict && (cost != 0 || legs != 0) {
            return None;
        }
        let mut rides = Vec::new();
        for _ in 0..legs {
            rides.push(Ride { leg: file.take(9)? as usize, departure: file.take(12)? });
        }
        file.tail_is_clean().then_some(PlanFile { verdict, query, cost, rides })
    }
}
