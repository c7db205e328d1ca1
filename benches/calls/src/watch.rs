//! The case under way in each thread, so that a call that crashes or does not return is named.

use std::process::exit;
use std::sync::atomic::{AtomicU64, Ordering::Relaxed};
use std::time::Duration;

pub const MOST_THREADS: usize = 64;
const NONE: u64 = u64::MAX;
static UNDER_WAY: [AtomicU64; MOST_THREADS] = [const { AtomicU64::new(NONE) }; MOST_THREADS];

/// A case takes about a millisecond. One that takes two minutes is taken not to return. Looks are counted, and not the clock, so that a program which
/// was stopped for a while is not accused.
const LOOK_EVERY: Duration = Duration::from_secs(5);
const LOOKS: u32 = 24;

/// Linux's numbers of the signals by which a call can crash: illegal instruction, abort, bus error, arithmetic, memory.
const CRASHES: [i32; 5] = [4, 6, 7, 8, 11];

extern "C" {
    fn signal(number: i32, handler: extern "C" fn(i32)) -> usize;
    fn write(file: i32, bytes: *const u8, len: usize) -> isize;
    fn _exit(status: i32) -> !;
}

pub fn start(thread: usize, case: u64) {
    UNDER_WAY[thread].store(case, Relaxed);
}

pub fn end(thread: usize) {
    start(thread, NONE);
}

/// To standard output, with nothing but a system call: a handler may do no more.
fn say(bytes: &[u8]) {
    unsafe { write(1, bytes.as_ptr(), bytes.len()) };
}

extern "C" fn crashed(_: i32) {
    say(b"A CALL CRASHED. Cases under way:");
    for case in UNDER_WAY.iter().map(|c| c.load(Relaxed)).filter(|&c| c != NONE) {
        let mut digits = [b' '; 21];
        let (mut rest, mut at) = (case, digits.len());
        while at == digits.len() || rest > 0 {
            at -= 1;
            digits[at] = b'0' + (rest % 10) as u8;
            rest /= 10;
        }
        say(&digits[at - 1..]);
    }
    say(b"\n");
    unsafe { _exit(1) }
}

fn look() {
    let mut last = [(NONE, 0); MOST_THREADS];
    loop {
        std::thread::sleep(LOOK_EVERY);
        for (case, (seen, looks)) in UNDER_WAY.iter().map(|c| c.load(Relaxed)).zip(&mut last) {
            if case == NONE || case != *seen {
                (*seen, *looks) = (case, 0);
            } else if *looks < LOOKS {
                *looks += 1;
            } else {
                println!("A CALL DOES NOT RETURN. Case under way: {case}");
                exit(1);
            }
        }
    }
}

/// From now on a crash, or a call that does not return, ends the program with status 1 and the number of the case.
pub fn begin() {
    for number in CRASHES {
        unsafe { signal(number, crashed) };
    }
    std::thread::spawn(look);
}
