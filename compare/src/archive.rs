//! The calls of the linked archive, each wrapped in a safe function that watches the lent buffers.

use crate::calls::{Call, Case, Outcome};
use crate::edge::Edge;

#[repr(C)]
#[derive(Clone, Copy)]
pub struct Reply {
    pub number: u32,
    pub length: u32,
}

#[allow(dead_code)]
mod linked {
    #[allow(unused_imports)]
    use super::Reply;

    #[cfg(has_read)]
    extern "C" {
        pub fn haul_read(net: *const u8, net_len: usize, list: *mut u32, list_len: usize) -> Reply;
    }
    #[cfg(has_write)]
    extern "C" {
        pub fn haul_write(list: *const u32, list_len: usize, out: *mut u8, out_len: usize) -> Reply;
    }
    #[cfg(has_plan)]
    extern "C" {
        pub fn haul_plan(
            net: *const u8,
            net_len: usize,
            start: u32,
            end: u32,
            earliest: u32,
            latest: u32,
            table: *mut u32,
            table_len: usize,
            out: *mut u8,
            out_len: usize,
        ) -> Reply;
    }
    #[cfg(has_sheet)]
    extern "C" {
        pub fn haul_sheet(
            net: *const u8,
            net_len: usize,
            start: u32,
            end: u32,
            earliest: u32,
            latest: u32,
            table: *mut u32,
            table_len: usize,
            out: *mut u8,
            out_len: usize,
        ) -> Reply;
    }
    #[cfg(has_gate)]
    extern "C" {
        pub fn haul_gate(
            net: *const u8,
            net_len: usize,
            plan: *const u8,
            plan_len: usize,
            sheet: *const u8,
            sheet_len: usize,
        ) -> u32;
    }
}

/// The calls that the archive has.
pub fn has(call: Call) -> bool {
    match call {
        Call::Read => cfg!(has_read),
        Call::Write => cfg!(has_write),
        Call::Plan => cfg!(has_plan),
        Call::Sheet => cfg!(has_sheet),
        Call::Gate => cfg!(has_gate),
    }
}

#[allow(dead_code)]
const ABSENT: &str = "the archive does not have this call";

#[allow(unused_variables)]
pub fn read(net: &[u8], list: &mut [u32]) -> Reply {
    #[cfg(has_read)]
    return unsafe { linked::haul_read(net.as_ptr(), net.len(), list.as_mut_ptr(), list.len()) };
    #[cfg(not(has_read))]
    panic!("{ABSENT}")
}

#[allow(unused_variables)]
pub fn write(list: &[u32], out: &mut [u8]) -> Reply {
    #[cfg(has_write)]
    return unsafe { linked::haul_write(list.as_ptr(), list.len(), out.as_mut_ptr(), out.len()) };
    #[cfg(not(has_write))]
    panic!("{ABSENT}")
}

#[allow(unused_variables)]
pub fn plan(net: &[u8], q: &crate::plan::Query, table: &mut [u32], out: &mut [u8]) -> Reply {
    #[cfg(has_plan)]
    return unsafe {
        linked::haul_plan(
            net.as_ptr(),
            net.len(),
            q.start,
            q.end,
            q.earliest,
            q.latest,
            table.as_mut_ptr(),
            table.len(),
            out.as_mut_ptr(),
            out.len(),
        )
    };
    #[cfg(not(has_plan))]
    panic!("{ABSENT}")
}

#[allow(unused_variables)]
pub fn sheet(net: &[u8], q: &crate::plan::Query, table: &mut [u32], out: &mut [u8]) -> Reply {
    #[cfg(has_sheet)]
    return unsafe {
        linked::haul_sheet(
            net.as_ptr(),
            net.len(),
            q.start,
            q.end,
            q.earliest,
            q.latest,
            table.as_mut_ptr(),
            table.len(),
            out.as_mut_ptr(),
            out.len(),
        )
    };
    #[cfg(not(has_sheet))]
    panic!("{ABSENT}")
}

#[allow(unused_variables)]
pub fn gate(net: &[u8], plan: &[u8], sheet: &[u8]) -> u32 {
    #[cfg(has_gate)]
    return unsafe {
        linked::haul_gate(net.as_ptr(), net.len(), plan.as_ptr(), plan.len(), sheet.as_ptr(), sheet.len())
    };
    #[cfg(not(has_gate))]
    panic!("{ABSENT}")
}

/// A buffer between two stretches of canaries. It stands at an odd address as often as at an even one.
struct Lent<T> {
    store: Vec<T>,
    front: usize,
    len: usize,
    canary: T,
}

const BEHIND: usize = 24;

impl<T: Copy + PartialEq> Lent<T> {
    fn new(content: &[T], canary: T) -> Lent<T> {
        let front = 16 + content.len() * 5 % 8;
        let mut store = vec![canary; front + content.len() + BEHIND];
        store[front..front + content.len()].copy_from_slice(content);
        Lent { store, front, len: content.len(), canary }
    }

    fn part(&mut self) -> &mut [T] {
        &mut self.store[self.front..self.front + self.len]
    }

    fn canaries_stand(&self) -> bool {
        let (before, rest) = self.store.split_at(self.front);
        let behind = &rest[self.len..];
        before.iter().chain(behind).all(|&x| x == self.canary)
    }

    fn back(&self) -> Vec<T> {
        self.store[self.front..self.front + self.len].to_vec()
    }
}

/// Says what happened to a buffer that was only to be read.
fn kept<T: Copy + PartialEq>(name: &str, was: &[T], lent: &Lent<T>) -> Result<(), String> {
    if lent.back() != was {
        return Err(format!("the input `{name}` was changed"));
    }
    stands(name, lent)
}

fn stands<T: Copy + PartialEq>(name: &str, lent: &Lent<T>) -> Result<(), String> {
    if lent.canaries_stand() {
        Ok(())
    } else {
        Err(format!("a canary beside `{name}` was overwritten"))
    }
}

const BYTE: u8 = 0xC7;
const NUMBER: u32 = 0xC7C6_C5C4;

/// Lends a case between canaries: the archive's outcome, or what it did to memory that was not its own.
fn between_canaries(case: &Case) -> Result<Outcome, String> {
    match case {
        Case::Read { net, list } => {
            let (mut a, mut b) = (Lent::new(net, BYTE), Lent::new(list, NUMBER));
            let reply = read(a.part(), b.part());
            kept("net", net, &a)?;
            stands("list", &b)?;
            Ok(outcome_of(reply, b.back(), Vec::new()))
        }
        Case::Write { list, out } => {
            let (mut a, mut b) = (Lent::new(list, NUMBER), Lent::new(out, BYTE));
            let reply = write(a.part(), b.part());
            kept("list", list, &a)?;
            stands("out", &b)?;
            Ok(outcome_of(reply, Vec::new(), b.back()))
        }
        Case::Plan { net, query, table, out } | Case::Sheet { net, query, table, out } => {
            let (mut a, mut b, mut c) = (Lent::new(net, BYTE), Lent::new(table, NUMBER), Lent::new(out, BYTE));
            let reply = plan_or_sheet(case.call())(a.part(), query, b.part(), c.part());
            kept("net", net, &a)?;
            stands("table", &b)?;
            stands("out", &c)?;
            Ok(outcome_of(reply, b.back(), c.back()))
        }
        Case::Gate { net, plan, sheet } => {
            let (mut a, mut b, mut c) = (Lent::new(net, BYTE), Lent::new(plan, BYTE), Lent::new(sheet, BYTE));
            let number = gate(a.part(), b.part(), c.part());
            kept("net", net, &a)?;
            kept("plan", plan, &b)?;
            kept("sheet", sheet, &c)?;
            Ok(outcome_of(Reply { number, length: 0 }, Vec::new(), Vec::new()))
        }
    }
}

fn outcome_of(reply: Reply, numbers: Vec<u32>, out: Vec<u8>) -> Outcome {
    Outcome { number: reply.number, length: reply.length, numbers, out }
}

type PlanCall = fn(&[u8], &crate::plan::Query, &mut [u32], &mut [u8]) -> Reply;

fn plan_or_sheet(call: Call) -> PlanCall {
    if call == Call::Plan {
        plan
    } else {
        sheet
    }
}

/// The archive, called in two ways: between canaries, and with every buffer right before a forbidden page.
pub struct Archive {
    edges: [Edge; 3],
}

impl Archive {
    pub fn new() -> Archive {
        Archive { edges: [Edge::new(), Edge::new(), Edge::new()] }
    }

    /// The archive's outcome; an error if it touched what was not its own or the two ways differ.
    pub fn outcome(&mut self, case: &Case) -> Result<Outcome, String> {
        let first = between_canaries(case)?;
        let second = self.at_the_edge(case);
        if first != second {
            return Err("the same call twice, two outcomes".into());
        }
        Ok(first)
    }

    fn at_the_edge(&mut self, case: &Case) -> Outcome {
        let [a, b, c] = &mut self.edges;
        match case {
            Case::Read { net, list } => {
                let list = b.hold(list);
                outcome_of(read(a.hold(net), list), list.to_vec(), Vec::new())
            }
            Case::Write { list, out } => {
                let out = b.hold(out);
                outcome_of(write(a.hold(list), out), Vec::new(), out.to_vec())
            }
            Case::Plan { net, query, table, out } | Case::Sheet { net, query, table, out } => {
                let (table, out) = (b.hold(table), c.hold(out));
                let reply = plan_or_sheet(case.call())(a.hold(net), query, table, out);
                outcome_of(reply, table.to_vec(), out.to_vec())
            }
            Case::Gate { net, plan, sheet } => {
                let number = gate(a.hold(net), b.hold(plan), c.hold(sheet));
                outcome_of(Reply { number, length: 0 }, Vec::new(), Vec::new())
            }
        }
    }
}
