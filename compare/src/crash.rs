//! If a call of the archive crashes, this says where the comparison was.

use std::sync::atomic::{AtomicU64, Ordering};

pub static SEED: AtomicU64 = AtomicU64::new(0);
pub static ROUND: AtomicU64 = AtomicU64::new(0);

#[cfg(unix)]
mod by_signal {
    use super::*;

    extern "C" {
        fn signal(number: i32, handler: usize) -> usize;
        fn write(file: i32, bytes: *const u8, count: usize) -> isize;
        fn _exit(status: i32) -> !;
    }

    /// Trap, abort, bus error, arithmetic, bad address, bad instruction.
    const SIGNALS: [i32; 6] = [5, 6, 7, 8, 11, 4];

    fn say(text: &[u8]) {
        unsafe { write(1, text.as_ptr(), text.len()) };
    }

    fn say_number(mut n: u64) {
        let mut digits = [0; 20];
        let mut at = digits.len();
        loop {
            at -= 1;
            digits[at] = b'0' + (n % 10) as u8;
            n /= 10;
            if n == 0 {
                break;
            }
        }
        say(&digits[at..]);
    }

    extern "C" fn crashed(number: i32) {
        say(b"CRASH (signal ");
        say_number(number as u64);
        say(b") at seed ");
        say_number(SEED.load(Ordering::Relaxed));
        say(b" round ");
        say_number(ROUND.load(Ordering::Relaxed));
        say(b"; run that round alone with --round, and the case stays in difference.txt\n");
        unsafe { _exit(1) }
    }

    pub fn watch() {
        for number in SIGNALS {
            unsafe { signal(number, crashed as extern "C" fn(i32) as usize) };
        }
    }
}

/// From here on a crash prints the seed and the round.
pub fn watch(seed: u64) {
    SEED.store(seed, Ordering::Relaxed);
    #[cfg(unix)]
    by_signal::watch();
}

pub fn at_round(round: u64) {
    ROUND.store(round, Ordering::Relaxed);
}
