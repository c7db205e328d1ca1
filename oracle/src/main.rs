//! The command line of the oracle.

use std::process::ExitCode;

use oracle::gen::Cases;

const USAGE: &str = "usage:
  oracle gen SEED COUNT FILE [off]   make cases, print how often each branch was taken
  oracle list FILE                   make the fixed list of cases
  oracle replay FILE                 run a file's cases and compare
  oracle small SEED COUNT            print small cases as text
  oracle stretches SEED              print small stretches as text
  oracle demand3 SEED COUNT [off]    try demand 3 and request k
  oracle time                        ns per period
off: every third case is one whose numbers run off";

fn number(s: &str) -> Result<u64, String> {
    s.parse().map_err(|_| format!("not a number: {s}\n{USAGE}"))
}

/// The cases of a seed, of which every third runs off where that is asked.
fn cases(seed: u64, off: &[&str]) -> Result<Cases, String> {
    match off {
        [] => Ok(Cases::new(seed)),
        ["off"] => Ok(Cases::running_off(seed)),
        _ => Err(USAGE.to_string()),
    }
}

fn act(args: &[&str]) -> Result<(), String> {
    let told = |r: std::io::Result<()>| r.map_err(|e| e.to_string());
    match args {
        ["gen", seed, count, file, off @ ..] => {
            let cases = cases(number(seed)?, off)?;
            told(oracle::gen::command(cases, number(count)?, file))
        }
        ["list", file] => told(oracle::list::command(file)),
        ["replay", file] => oracle::replay::command(file),
        ["small", seed, count] => {
            oracle::small::command(number(seed)?, number(count)? as usize);
            Ok(())
        }
        ["stretches", seed] => {
            oracle::stretches::command(number(seed)?);
            Ok(())
        }
        ["demand3", seed, count, off @ ..] => {
            let seed = number(seed)?;
            oracle::demand3::command(cases(seed, off)?, seed, number(count)?)
        }
        ["time"] => {
            oracle::time::command();
            Ok(())
        }
        _ => Err(USAGE.to_string()),
    }
}

fn main() -> ExitCode {
    let args: Vec<String> = std::env::args().skip(1).collect();
    let args: Vec<&str> = args.iter().map(String::as_str).collect();
    match act(&args) {
        Ok(()) => ExitCode::SUCCESS,
        Err(e) => {
            eprintln!("{e}");
            ExitCode::FAILURE
        }
    }
}
