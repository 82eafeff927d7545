//! Plans a query, writes its sheet, and passes both through the gate.
//!   plan NETWORK START END EARLIEST LATEST

#[repr(C)]
struct Reply {
    number: u32,
    length: u32,
}

mod linked {
    use super::Reply;

    /// The type that the plan call and the sheet call share.
    pub type Plan =
        unsafe extern "C" fn(*const u8, usize, u32, u32, u32, u32, *mut u32, usize, *mut u8, usize) -> Reply;

    extern "C" {
        pub fn haul_plan(
            net: *const u8,
            net_len: usize,
            start: u32,
            end: u32,
            earliest: u32,
            latest: u32,
            table: *mut u32,
            table_len: usize,
            out: *mut u8,
            out_len: usize,
        ) -> Reply;
        pub fn haul_sheet(
            net: *const u8,
            net_len: usize,
            start: u32,
            end: u32,
            earliest: u32,
            latest: u32,
            table: *mut u32,
            table_len: usize,
            out: *mut u8,
            out_len: usize,
        ) -> Reply;
        pub fn haul_gate(
            net: *const u8,
            net_len: usize,
            plan: *const u8,
            plan_len: usize,
            sheet: *const u8,
            sheet_len: usize,
        ) -> u32;
    }
}

struct Query {
    start: u32,
    end: u32,
    earliest: u32,
    latest: u32,
}

fn call(which: linked::Plan, net: &[u8], q: &Query, table: &mut [u32], out: &mut [u8]) -> Reply {
    unsafe {
        which(
            net.as_ptr(),
            net.len(),
            q.start,
            q.end,
            q.earliest,
            q.latest,
            table.as_mut_ptr(),
            table.len(),
            out.as_mut_ptr(),
            out.len(),
        )
    }
}

fn haul_gate(net: &[u8], plan: &[u8], sheet: &[u8]) -> u32 {
    unsafe { linked::haul_gate(net.as_ptr(), net.len(), plan.as_ptr(), plan.len(), sheet.as_ptr(), sheet.len()) }
}

const MOST_CELLS: usize = 184_320;
const MOST_PLAN_BYTES: usize = 177;
const MOST_SHEET_BYTES: usize = 1_013_858;

/// A field of a file: `width` bits from bit `at` on.
fn field(file: &[u8], at: usize, width: usize) -> u32 {
    (at..at + width).fold(0, |value, k| value << 1 | u32::from(file[k / 8] >> (7 - k % 8) & 1))
}

fn print_plan(file: &[u8]) {
    println!("cost {}", field(file, 45, 32));
    for k in 0..field(file, 77, 12) as usize {
        println!("leg {} leave {}", field(file, 89 + 21 * k, 9), field(file, 98 + 21 * k, 12));
    }
}

fn main() {
    let words: Vec<String> = std::env::args().skip(1).collect();
    if words.len() != 5 {
        eprintln!("plan NETWORK START END EARLIEST LATEST");
        std::process::exit(2);
    }
    let net = std::fs::read(&words[0]).expect("the network file");
    let number = |k: usize| words[k].parse().expect("a number");
    let query = Query { start: number(1), end: number(2), earliest: number(3), latest: number(4) };
    let mut table = vec![0; MOST_CELLS];

    let mut plan = vec![0; MOST_PLAN_BYTES];
    let planned = call(linked::haul_plan, &net, &query, &mut table, &mut plan);
    println!("plan: answer {}, {} bytes", planned.number, planned.length);
    match planned.number {
        0 => print_plan(&plan),
        10 => {}
        _ => std::process::exit(1),
    }

    let mut sheet = vec![0; MOST_SHEET_BYTES];
    let bound = call(linked::haul_sheet, &net, &query, &mut table, &mut sheet);
    println!("sheet: answer {}, {} bytes", bound.number, bound.length);

    let verdict = haul_gate(&net, &plan[..planned.length as usize], &sheet[..bound.length as usize]);
    println!("gate: answer {verdict}");
    std::process::exit(i32::from(verdict != 0));
}
