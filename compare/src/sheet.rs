//! The bound sheet: its file, and our own sheet for a query.

use crate::bits::{pack, BitReader};
use crate::plan::Query;
use crate::table::Table;

pub const MOST_STEPS: usize = 2_880;

#[derive(Clone, Copy, Debug, PartialEq)]
pub struct Step {
    pub minute: u32,
    pub cost: u32,
}

/// The steps of each place.
#[derive(Clone, Debug, PartialEq)]
pub struct Sheet {
    pub rows: Vec<Vec<Step>>,
}

impl Sheet {
    /// The least costs themselves: a step just where the value first appears or falls.
    pub fn of(places: usize, query: &Query, table: &Table) -> Sheet {
        let row = |place| {
            let mut steps: Vec<Step> = Vec::new();
            for minute in query.earliest..=query.latest {
                if let Some(cell) = table.at(place, minute) {
                    if steps.last().is_none_or(|last| cell.cost < last.cost) {
                        steps.push(Step { minute, cost: cell.cost });
                    }
                }
            }
            steps
        };
        Sheet { rows: (0..places).map(row).collect() }
    }

    pub fn bytes(&self) -> Vec<u8> {
        let mut fields = vec![(8, 1), (7, self.rows.len() as u32)];
        for row in &self.rows {
            fields.push((12, row.len() as u32));
            for step in row {
                fields.push((12, step.minute));
                fields.push((32, step.cost));
            }
        }
        pack(&fields)
    }

    /// The file, or nothing where the gate answers 13.
    pub fn read(bytes: &[u8], places: usize, query: &Query) -> Option<Sheet> {
        let mut file = BitReader::new(bytes);
        if file.take(8)? != 1 || file.take(7)? as usize != places {
            return None;
        }
        let mut rows = Vec::new();
        for _ in 0..places {
            let count = file.take(12)? as usize;
            if count > MOST_STEPS {
                return None;
            }
            let mut row: Vec<Step> = Vec::new();
            for _ in 0..count {
                let step = Step { minute: file.take(12)?, cost: file.take(32)? };
                let inside = query.earliest <= step.minute && step.minute <= query.latest;
                let follows = row.last().is_none_or(|l| l.minute < step.minute && l.cost > step.cost);
                if !inside || !follows {
                    return None;
                }
                row.push(step);
            }
            rows.push(row);
        }
        file.tail_is_clean().then_some(Sheet { rows })
    }

    /// The cost of the last step at or before the minute.
    pub fn value(&self, place: usize, minute: u32) -> Option<u32> {
        self.rows[place].iter().filter(|step| step.minute <= minute).next_back().map(|step| step.cost)
    }

    /// The value at each minute of the window.
    pub fn values(&self, place: usize, query: &Query) -> Vec<Option<u32>> {
        let mut out = Vec::new();
        let mut steps = self.rows[place].iter().peekable();
        let mut value = None;
        for minute in query.earliest..=query.latest {
            while let Some(step) = steps.next_if(|step| step.minute <= minute) {
                value = Some(step.cost);
            }
            out.push(value);
        }
        out
    }
}
