//! The fixed list of cases: taken from the cases of seed 1, each because it
//! adds to a mark, a pair of refusals or a kind of scene that is still short;
//! then the bench figures.

use std::io;

use crate::case;
use crate::figures;
use crate::file;
use crate::gen::{check_scene, Cases, Scene};
use crate::marks::{Tally, COUNT};
use crate::pointed;

/// At least so many cases of every mark.
const OF_MARK: u64 = 20;
/// At least so many cases of every pair of refusals.
const OF_PAIR: u64 = 2;
/// At least so many cases of every flavour of general cases.
const OF_GENERAL: usize = 40;
/// So many cases of every slip.
const OF_POINTED: usize = 4;
/// So many of every way of running off, whose numbers hardly vary.
const OF_WAY: usize = 2;
/// A case above this many words is taken only for its scene's own sake.
const WORDS: usize = 1200;
/// Cases looked at.
const LOOKED_AT: usize = 20_000;

/// The list as bytes, with its counts.
pub fn list() -> (Vec<u8>, Tally) {
    let mut tally = Tally::default();
    let mut writer = file::Writer::new();
    let mut bytes = Vec::new();
    let mut general = [0; 5];
    let mut aimed = [0; pointed::KINDS];
    for (scene, case) in Cases::new(1).take(LOOKED_AT) {
        let e = case::run(&case);
        check_scene(scene, &e);
        let words = file::words(&case, &e).len();
        let short_of = (0..COUNT).any(|k| e.hits[k] > 0 && tally.in_cases[k] < OF_MARK);
        let wanted = match scene {
            Scene::Pointed(k) if words > WORDS => aimed[k] < 1,
            Scene::Pointed(k) if k >= pointed::OFFS => aimed[k] < OF_WAY,
            Scene::Pointed(k) => aimed[k] < OF_POINTED,
            _ if words > WORDS => false,
            Scene::General(f) => general[f as usize] < OF_GENERAL || short_of,
            Scene::Pair(a, b) => tally.pairs[a][b] < OF_PAIR || short_of,
            _ => short_of,
        };
        if !wanted {
            continue;
        }
        match scene {
            Scene::General(f) => general[f as usize] += 1,
            Scene::Pointed(k) => aimed[k] += 1,
            _ => (),
        }
        tally.add(&e, case.pair);
        bytes.extend_from_slice(writer.case(&case, &e));
    }
    for figure in figures::all() {
        let e = case::run(&figure.case);
        figures::hold(&figure, &e);
        tally.add(&e, None);
        bytes.extend_from_slice(writer.case(&figure.case, &e));
    }
    let mut whole = file::header(tally.cases);
    whole.extend(bytes);
    (whole, tally)
}

/// `oracle list FILE`.
pub fn command(path: &str) -> io::Result<()> {
    let (bytes, tally) = list();
    std::fs::write(path, &bytes)?;
    tally.print();
    println!("file: {} bytes", bytes.len());
    Ok(())
}
