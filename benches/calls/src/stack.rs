//! The stack that a call of the library takes: it runs on a painted stack of its own, and the deepest byte that lost its paint tells.

use oracle::case::Case;
use oracle::gen::Cases;
use oracle::time;

use crate::cuts::{self, Run};
use crate::lent::{Args, Ask, Lent};
use crate::library::{self, Call, CALLS};

const SIZE: usize = 1 << 20;
const PAINT: u8 = 0xA5;
/// Fresh cases, which between them take every branch.
const CASES: usize = 1000;

/// One call, on whatever stack it is made.
extern "C" fn call(which: &Call, args: &Args) {
    unsafe { library::call(*which, args) };
}

/// Runs `call` with the stack pointer at `top`.
#[cfg(target_arch = "x86_64")]
unsafe fn call_on(top: *mut u8, which: &Call, args: &Args) {
    std::arch::asm!(
        "mov r12, rsp",
        "mov rsp, {top}",
        "call {f}",
        "mov rsp, r12",
        top = in(reg) top,
        f = sym call,
        in("rdi") which,
        in("rsi") args,
        out("r12") _,
        clobber_abi("C"),
    );
}

/// Runs `call` with the stack pointer at `top`.
#[cfg(target_arch = "aarch64")]
unsafe fn call_on(top: *mut u8, which: &Call, args: &Args) {
    std::arch::asm!(
        "mov x20, sp",
        "mov sp, {top}",
        "bl {f}",
        "mov sp, x20",
        top = in(reg) top,
        f = sym call,
        in("x0") which,
        in("x1") args,
        out("x20") _,
        clobber_abi("C"),
    );
}

/// Bytes of stack that a call takes, with its parameters and the frames that hand them over, here 700 to 800 bytes.
#[cfg(any(target_arch = "x86_64", target_arch = "aarch64"))]
fn depth(which: Call, lent: &mut Lent, room: &mut [u128]) -> usize {
    let bytes = room.as_mut_ptr().cast::<u8>();
    let args = lent.args();
    unsafe {
        bytes.write_bytes(PAINT, SIZE);
        call_on(bytes.add(SIZE), &which, &args);
        let kept = (0..SIZE).take_while(|&k| bytes.add(k).read() == PAINT).count();
        SIZE - kept
    }
}

/// The deepest of a case's calls. As a stretch it is begun; and where its run starts, it goes on from the middle, as the last and not.
#[cfg(any(target_arch = "x86_64", target_arch = "aarch64"))]
fn deepest(which: Call, case: &Case, room: &mut [u128]) -> usize {
    if which != Call::Stretch {
        return depth(which, &mut Lent::of(case, 0), room);
    }
    let save = if case.m <= 8 { oracle::saved_len(case.m) } else { 0 };
    let begun = Ask { begins: 1, room: save, ..Ask::default() };
    let mut most = depth(which, &mut Lent::new(&case.inputs(), &case.lent, &begun, 0), room);
    if let Ok(run) = Run::of(case) {
        let half = case.n / 2;
        let bytes = run.bytes(half);
        for last in [0, 1] {
            let ask = Ask { begins: 0, saved: &bytes, last, room: save };
            let mut lent = Lent::new(&cuts::periods(case, half, case.n), &oracle::needed(case.p, case.m, case.n - half), &ask, 0);
            most = most.max(depth(which, &mut lent, room));
        }
    }
    most
}

/// The timed case of m = p = 8, and the deepest over fresh cases.
#[cfg(any(target_arch = "x86_64", target_arch = "aarch64"))]
pub fn print() {
    let mut room = vec![0u128; SIZE / 16];
    println!("Deepest stack of a call of the library, in bytes, with its parameters and the frame that hands them over");
    println!("{:>10} {:>12} {:>28}", "", "m = p = 8", "1,000 calls, every branch");
    for which in CALLS.into_iter().chain([Call::Stretch]) {
        let largest = deepest(which, &time::case(8, 8, 16), &mut room);
        let all = Cases::new(1).take(CASES).map(|(_, case)| deepest(which, &case, &mut room)).max();
        println!("{:>10} {largest:>12} {:>28}", which.name(), all.unwrap_or(0));
    }
}

#[cfg(not(any(target_arch = "x86_64", target_arch = "aarch64")))]
pub fn print() {
    println!("Deepest stack of a call of the library: measured on x86-64 and Arm alone");
}
