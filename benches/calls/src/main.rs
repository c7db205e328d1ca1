//! The library's calls beside the oracle's: compared, timed, and the stack that they take.
//!
//! usage: calls-bench [time | stack | check SEED COUNT [off]]
mod altered;
mod clock;
mod compare;
mod cuts;
mod kinds;
mod lent;
mod library;
mod stack;
mod tally;
mod timing;
mod values;
mod watch;
mod wild;

use std::process::exit;

fn usage() -> ! {
    eprintln!("usage: calls-bench [time | stack | check SEED COUNT [off]]");
    exit(2)
}

fn number(word: Option<&String>) -> u64 {
    word.and_then(|w| w.parse().ok()).unwrap_or_else(|| usage())
}

/// How many threads the comparison may use: COMPARE_THREADS, or one.
fn threads() -> usize {
    let asked = std::env::var("COMPARE_THREADS").ok();
    asked.map_or(1, |word| number(Some(&word)) as usize).clamp(1, watch::MOST_THREADS)
}

/// The timed calls are compared first: nothing is timed where one differs.
fn time() {
    if !timing::check() {
        exit(1);
    }
    timing::print();
}

fn main() {
    let words: Vec<String> = std::env::args().skip(1).collect();
    match words.first().map(String::as_str) {
        Some("time") => time(),
        Some("stack") => stack::print(),
        Some("check") => {
            let off = match words.get(3).map(String::as_str) {
                None => false,
                Some("off") => true,
                Some(_) => usage(),
            };
            let agrees = compare::compare(number(words.get(1)), number(words.get(2)), off, threads());
            exit(i32::from(!agrees));
        }
        None => {
            time();
            println!();
            stack::print();
        }
        Some(_) => usage(),
    }
}
