//! How much stack each call uses: it is run on a painted stack, and the paint that is gone is counted.

use crate::archive;
use crate::calls::Call;
use crate::dice::Dice;
use crate::make;
use crate::network;
use crate::plain;
use crate::plan::Query;

const PAINT: u8 = 0x5C;
const SIZE: usize = 8 << 20;

/// Runs a work on a stack of its own and tells how many bytes of it were written.
fn used(work: &mut dyn FnMut()) -> usize {
    let mut stack = vec![PAINT; SIZE];
    run_on(&mut stack, work);
    let untouched = stack.iter().take_while(|&&byte| byte == PAINT).count();
    SIZE - untouched
}

/// Called on the other stack, with the address of the work.
extern "C" fn enter(work: *mut &mut dyn FnMut()) {
    unsafe { (*work)() }
}

#[cfg(target_arch = "x86_64")]
fn run_on(stack: &mut [u8], work: &mut dyn FnMut()) {
    let mut work = work;
    let top = (stack.as_mut_ptr() as usize + stack.len()) & !15;
    unsafe {
        std::arch::asm!(
            "mov r12, rsp",
            "mov rsp, {top}",
            "call {enter}",
            "mov rsp, r12",
            top = in(reg) top,
            enter = sym enter,
            in("rdi") &mut work,
            out("r12") _,
            clobber_abi("C"),
        );
    }
}

#[cfg(not(target_arch = "x86_64"))]
fn run_on(_stack: &mut [u8], _work: &mut dyn FnMut()) {
    panic!("the stack is measured on x86-64 only");
}

/// The stack of each call of the archive on the largest network and on a line of 63 legs.
pub fn run() -> i32 {
    let none = used(&mut || ());
    println!("| call | network | bytes of stack |");
    println!("|---|---|--:|");
    let mut dice = Dice::new(3);
    let largest = make::largest(&mut dice);
    let line = make::chain(&mut dice, 64, 1, 5);
    for (net, name) in [(&largest, "64 places, 512 legs, 8 bands"), (&line, "64 places in a line")] {
        let file = network::file_of(net);
        let query = Query { start: 0, end: 63, earliest: 0, latest: 2_879 };
        let row = |call: Call, work: &mut dyn FnMut()| {
            if archive::has(call) {
                println!("| {} | {name} | {} |", call.name(), used(work).saturating_sub(none));
            }
        };
        let mut list = network::list_of(net);
        let mut copy = file.clone();
        let (mut cells, mut out) = (vec![0; 64 * 2_880], vec![0; 1_100_000]);
        let (mut plan, mut sheet) = (vec![0; 256], vec![0; 1_100_000]);
        let (_, length) = plain::plan(&file, &query, &mut cells, &mut plan);
        plan.truncate(length as usize);
        let (_, length) = plain::sheet(&file, &query, &mut cells, &mut sheet);
        sheet.truncate(length as usize);
        row(Call::Read, &mut || {
            archive::read(&file, &mut list);
        });
        row(Call::Write, &mut || {
            archive::write(&list, &mut copy);
        });
        row(Call::Plan, &mut || {
            archive::plan(&file, &query, &mut cells, &mut out);
        });
        row(Call::Sheet, &mut || {
            archive::sheet(&file, &query, &mut cells, &mut out);
        });
        row(Call::Gate, &mut || {
            archive::gate(&file, &plan, &sheet);
        });
    }
    0
}
