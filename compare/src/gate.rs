//! The gate, literally: rule (b) at every leg and every minute.

use crate::network::{self, Network};
use crate::plan::{cost, feasible, PlanFile, Query};
use crate::sheet::Sheet;

pub fn judge(net: &[u8], plan: &[u8], sheet: &[u8]) -> u32 {
    let net = match network::read(net) {
        Ok(net) => net,
        Err(fault) => return fault,
    };
    let Some(plan) = PlanFile::read(plan) else { return 11 };
    if let Some(fault) = plan.query.fault(net.places) {
        return fault;
    }
    if plan.verdict && !sound(&net, &plan) {
        return 12;
    }
    let Some(sheet) = Sheet::read(sheet, net.places, &plan.query) else { return 13 };
    if !obeys_a(&sheet, &plan.query) || !obeys_b(&net, &sheet, &plan.query) {
        return 14;
    }
    if !tight(&plan, &sheet) {
        return 15;
    }
    0
}

/// The plan is feasible and states its cost.
fn sound(net: &Network, plan: &PlanFile) -> bool {
    feasible(net, &plan.query, &plan.rides) && cost(net, &plan.rides) == u64::from(plan.cost)
}

fn obeys_a(sheet: &Sheet, query: &Query) -> bool {
    sheet.rows[query.start as usize].iter().any(|step| step.minute == query.earliest && step.cost == 0)
}

fn obeys_b(net: &Network, sheet: &Sheet, query: &Query) -> bool {
    let rows: Vec<_> = (0..net.places).map(|place| sheet.values(place, query)).collect();
    for leg in &net.legs {
        for departure in query.earliest..=query.latest {
            let arrival = departure + leg.time;
            if arrival > query.latest {
                continue;
            }
            let Some(paid) = rows[leg.from][(departure - query.earliest) as usize] else { continue };
            let bound = u64::from(paid) + u64::from(leg.toll_at(departure));
            match rows[leg.to][(arrival - query.earliest) as usize] {
                Some(value) if u64::from(value) <= bound => {}
                _ => return false,
            }
        }
    }
    true
}

fn tight(plan: &PlanFile, sheet: &Sheet) -> bool {
    let value = sheet.value(plan.query.end as usize, plan.query.latest);
    if plan.verdict {
        value == Some(plan.cost)
    } else {
        value.is_none()
    }
}
