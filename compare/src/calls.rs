//! The five calls as document 01 has them, over buffers that are lent and come back.

use crate::bits::pack;
use crate::gate;
use crate::network;
use crate::plan::{cost, PlanFile, Query};
use crate::sheet::Sheet;
use crate::table;

#[derive(Clone, Copy, Debug, PartialEq, Eq, PartialOrd, Ord)]
pub enum Call {
    Read,
    Write,
    Plan,
    Sheet,
    Gate,
}

pub const ALL: [Call; 5] = [Call::Read, Call::Write, Call::Plan, Call::Sheet, Call::Gate];

impl Call {
    pub fn name(self) -> &'static str {
        match self {
            Call::Read => "read",
            Call::Write => "write",
            Call::Plan => "plan",
            Call::Sheet => "sheet",
            Call::Gate => "gate",
        }
    }

    /// The answers that document 01 lets this call give.
    pub fn answers(self) -> &'static [u32] {
        match self {
            Call::Read | Call::Write => &[0, 1, 2, 3, 4, 5, 9],
            Call::Plan | Call::Sheet => &[0, 1, 2, 3, 4, 5, 6, 7, 8, 9, 10],
            Call::Gate => &[0, 1, 2, 3, 4, 5, 6, 7, 11, 12, 13, 14, 15],
        }
    }
}

/// One call with all that is lent to it. `numbers` is the list or the table, `out` the output.
#[derive(Clone, Debug, PartialEq)]
pub enum Case {
    Read { net: Vec<u8>, list: Vec<u32> },
    Write { list: Vec<u32>, out: Vec<u8> },
    Plan { net: Vec<u8>, query: Query, table: Vec<u32>, out: Vec<u8> },
    Sheet { net: Vec<u8>, query: Query, table: Vec<u32>, out: Vec<u8> },
    Gate { net: Vec<u8>, plan: Vec<u8>, sheet: Vec<u8> },
}

impl Case {
    pub fn call(&self) -> Call {
        match self {
            Case::Read { .. } => Call::Read,
            Case::Write { .. } => Call::Write,
            Case::Plan { .. } => Call::Plan,
            Case::Sheet { .. } => Call::Sheet,
            Case::Gate { .. } => Call::Gate,
        }
    }
}

/// What comes back: the number, the length, and the lent buffers as they now stand.
#[derive(Clone, Debug, PartialEq)]
pub struct Outcome {
    pub number: u32,
    pub length: u32,
    pub numbers: Vec<u32>,
    pub out: Vec<u8>,
}

/// The outcome by the rules of document 01.
pub fn by_the_rules(case: &Case) -> Outcome {
    match case {
        Case::Read { net, list } => read(net, list.clone()),
        Case::Write { list, out } => write(list, out.clone()),
        Case::Plan { net, query, table, out } => plan_or_sheet(net, query, table.clone(), out.clone(), false),
        Case::Sheet { net, query, table, out } => plan_or_sheet(net, query, table.clone(), out.clone(), true),
        Case::Gate { net, plan, sheet } => {
            Outcome { number: gate::judge(net, plan, sheet), length: 0, numbers: Vec::new(), out: Vec::new() }
        }
    }
}

fn read(net: &[u8], mut list: Vec<u32>) -> Outcome {
    let (number, length) = match network::fields_of_file(net) {
        Err(fault) => (fault, 0),
        Ok(fields) if fields.len() > list.len() => (9, 0),
        Ok(fields) => {
            for (k, &(_, value)) in fields.iter().enumerate() {
                list[k] = value;
            }
            (0, fields.len() as u32)
        }
    };
    Outcome { number, length, numbers: list, out: Vec::new() }
}

fn write(list: &[u32], mut out: Vec<u8>) -> Outcome {
    let (number, length) = match network::fields_of_list(list) {
        Err(fault) => (fault, 0),
        Ok(fields) => put_in_front(&pack(&fields), &mut out, 0),
    };
    Outcome { number, length, numbers: Vec::new(), out }
}

/// 9 if there is no room, else the file at the front and the given answer.
fn put_in_front(file: &[u8], out: &mut [u8], answer: u32) -> (u32, u32) {
    if file.len() > out.len() {
        return (9, 0);
    }
    out[..file.len()].copy_from_slice(file);
    (answer, file.len() as u32)
}

fn plan_or_sheet(net: &[u8], query: &Query, mut cells: Vec<u32>, mut out: Vec<u8>, sheet: bool) -> Outcome {
    let (number, length) = plan_or_sheet_into(net, query, &mut cells, &mut out, sheet);
    Outcome { number, length, numbers: cells, out }
}

fn plan_or_sheet_into(net: &[u8], query: &Query, cells: &mut [u32], out: &mut [u8], sheet: bool) -> (u32, u32) {
    let net = match network::read(net) {
        Ok(net) => net,
        Err(fault) => return (fault, 0),
    };
    if let Some(fault) = query.fault(net.places) {
        return (fault, 0);
    }
    if cells.len() < net.places * query.window() {
        return (8, 0);
    }
    let table = table::fill(&net, query);
    let numbers = table.numbers();
    cells[..numbers.len()].copy_from_slice(&numbers);
    let plan = table::named_plan(&net, query, &table);
    let answer = if plan.is_some() { 0 } else { 10 };
    let file = if sheet {
        Sheet::of(net.places, query, &table).bytes()
    } else {
        match plan {
            Some(rides) => PlanFile::of(*query, cost(&net, &rides) as u32, rides).bytes(),
            None => PlanFile::none(*query).bytes(),
        }
    };
    put_in_front(&file, out, answer)
}
