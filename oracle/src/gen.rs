//! The cases of a seed, in order: a deck of scenes dealt over and over, each
//! with its own random numbers.

use std::io::{self, Write};

use tsecon_ssm_probed::probe::Branch;

use crate::case::{self, Case};
use crate::file;
use crate::makers::{Flavour, Maker, Room};
use crate::marks::Tally;
use crate::offs::{Wish, WISHES};
use crate::pointed;
use crate::refuse;
use crate::rng::Rng;

/// What a case is made for.
#[derive(Debug, Clone, Copy, PartialEq, Eq)]
pub enum Scene {
    General(Flavour),
    /// Made until the branch is taken.
    Branch(Branch),
    LongDiffuse,
    PlaceN,
    SmootherAlone,
    /// Pointed at a slip, see `pointed`.
    Pointed(usize),
    /// Inflated until the reports are as wished.
    RanOff(Wish),
    /// Refused by a test, see `refuse::ORDER`.
    Refused(usize),
    /// By two of them, the one that is judged first before the other.
    Pair(usize, usize),
}

/// Tries for a branch before the last one is taken as it is.
const TRIES: usize = 400;

/// The scenes, each as often as it is dealt in a round.
pub fn deck() -> Vec<Scene> {
    let mut d = Vec::new();
    let mut put = |times: usize, s: Scene| d.extend(std::iter::repeat_n(s, times));
    for (times, f) in [
        (14, Flavour::Short),
        (18, Flavour::Plain),
        (14, Flavour::Huge),
        (12, Flavour::Tiny),
        (12, Flavour::Wild),
    ] {
        put(times, Scene::General(f));
    }
    for b in targets() {
        put(3, Scene::Branch(b));
    }
    put(2, Scene::LongDiffuse);
    put(2, Scene::PlaceN);
    put(2, Scene::SmootherAlone);
    for k in 0..pointed::KINDS {
        put(1, Scene::Pointed(k));
    }
    for w in WISHES {
        put(1, Scene::RanOff(w));
    }
    for k in refuse::ORDER {
        put(1, Scene::Refused(k));
    }
    for (a, b) in refuse::pairs() {
        put(1, Scene::Pair(a, b));
    }
    // Mixed by a fixed shuffle, so that a short run sees every kind.
    let mut rng = Rng::new(0);
    for k in (1..d.len()).rev() {
        d.swap(k, rng.below(k + 1));
    }
    d
}

/// The branches that have a maker of their own.
pub fn targets() -> [Branch; 14] {
    [
        Branch::DiffuseRefused,
        Branch::ClearBound,
        Branch::ClearReference,
        Branch::Below,
        Branch::SuspectDiffuse,
        Branch::SuspectAccepted,
        Branch::SuspectRefused,
        Branch::RootAgain,
        Branch::RankShort,
        Branch::RankZero,
        Branch::PivotTie,
        Branch::DowndateEarly,
        Branch::AtTolerance,
        Branch::BoundNan,
    ]
}

fn for_branch(mk: &mut Maker<'_>, b: Branch) -> Case {
    match b {
        Branch::DiffuseRefused => mk.diffuse_again(),
        Branch::ClearReference => mk.by_reference(),
        Branch::SuspectDiffuse => mk.collinear_diffuse(),
        Branch::SuspectRefused if mk.rng.chance(1, 3) => mk.hidden_from_root(),
        Branch::SuspectRefused => mk.dust(),
        Branch::RankZero => mk.rank_zero(),
        Branch::DowndateEarly => mk.early_return(),
        Branch::AtTolerance => mk.at_tolerance(),
        Branch::BoundNan => mk.bound_nan(),
        _ => mk.collinear(),
    }
}

/// The case with T as a list, every second time: of other matrices from the
/// second on where it is still as it must be, else of copies.
fn listed(mk: &mut Maker<'_>, mut case: Case, still: impl Fn(&Case) -> bool) -> Case {
    mk.maybe_list_t(&mut case);
    if case.ts.is_empty() {
        return case;
    }
    let mut varied = case.clone();
    mk.vary_t(&mut varied, Flavour::Short);
    if still(&varied) {
        varied
    } else {
        case
    }
}

/// One case of a scene. T is a list in every second one.
pub fn make(rng: &mut Rng, room: Room, scene: Scene) -> Case {
    let mut mk = Maker { rng, room };
    match scene {
        Scene::General(f) => mk.general(f),
        Scene::Branch(b) => {
            let taken = |case: &Case| case::probe_hits(case)[b as usize] > 0;
            let mut case = for_branch(&mut mk, b);
            for _ in 0..TRIES {
                if taken(&case) {
                    break;
                }
                case = for_branch(&mut mk, b);
            }
            listed(&mut mk, case, taken)
        }
        Scene::LongDiffuse => {
            let case = mk.long_diffuse();
            listed(&mut mk, case, |_| true)
        }
        Scene::PlaceN => {
            let case = mk.shrinks();
            listed(&mut mk, case, |_| false)
        }
        Scene::SmootherAlone => mk.smoother_alone(),
        Scene::Pointed(k) => {
            let case = mk.pointed(k);
            match pointed::LISTS_OF_T.contains(&k) {
                true => case,
                false => listed(&mut mk, case, |_| false),
            }
        }
        Scene::RanOff(w) => mk.wished(w),
        Scene::Refused(k) => mk.refused(k),
        Scene::Pair(a, b) => mk.refused_twice(a, b),
    }
}

/// The cases of a seed.
pub struct Cases {
    seed: u64,
    next: u64,
    deck: Vec<Scene>,
    /// Whether every third case is one that runs off.
    off: bool,
}

/// One case in so many runs off, where that is asked for.
const OFF_EVERY: u64 = 3;

impl Cases {
    pub fn new(seed: u64) -> Self {
        Cases {
            seed,
            next: 0,
            deck: deck(),
            off: false,
        }
    }

    /// The same, and every third case is one whose answer carries a report.
    pub fn running_off(seed: u64) -> Self {
        Cases {
            off: true,
            ..Cases::new(seed)
        }
    }

    fn scene(&self, k: u64) -> Scene {
        if self.off && k % OFF_EVERY == OFF_EVERY - 1 {
            let round = (k / OFF_EVERY) as usize;
            return Scene::RanOff(WISHES[round % WISHES.len()]);
        }
        self.deck[(k % self.deck.len() as u64) as usize]
    }

    /// Case k, whatever was asked before.
    pub fn at(&self, k: u64) -> (Scene, Case) {
        let scene = self.scene(k);
        let mut seed = Rng::new(self.seed);
        let mut rng = Rng::new(seed.word() ^ k.wrapping_mul(0xD134_2543_DE82_EF95));
        (scene, make(&mut rng, Room::Usual, scene))
    }
}

impl Iterator for Cases {
    type Item = (Scene, Case);
    fn next(&mut self) -> Option<(Scene, Case)> {
        let k = self.next;
        self.next += 1;
        Some(self.at(k))
    }
}

/// What a scene promises of the outcome, checked on every case.
pub fn check_scene(scene: Scene, e: &case::Expected) {
    let want = match scene {
        Scene::Refused(k) | Scene::Pair(k, _) => refuse::number(k),
        Scene::RanOff(_) => {
            let told = matches!(e.filter, Ok(a) if a.cov_off > 0 || a.mean_off > 0);
            return assert!(told, "{scene:?}");
        }
        _ => return,
    };
    assert_eq!(e.filter.unwrap_err() as usize, want, "{scene:?}");
    assert_eq!(e.smooth.unwrap_err() as usize, want, "{scene:?}");
}

/// `oracle gen SEED COUNT FILE`; no file is written where FILE is `-`.
pub fn command(cases: Cases, count: u64, path: &str) -> io::Result<()> {
    let mut tally = Tally::default();
    let mut writer = file::Writer::new();
    let mut out = match path {
        "-" => None,
        _ => Some(io::BufWriter::new(std::fs::File::create(path)?)),
    };
    if let Some(f) = &mut out {
        f.write_all(&file::header(count))?;
    }
    for (scene, case) in cases.take(count as usize) {
        let e = case::run(&case);
        check_scene(scene, &e);
        tally.add(&e, case.pair);
        let bytes = writer.case(&case, &e);
        if let Some(f) = &mut out {
            f.write_all(bytes)?;
        }
    }
    if let Some(mut f) = out {
        f.flush()?;
    }
    tally.print();
    println!(
        "largest case: {} words, largest part: {} places",
        writer.largest_case, writer.largest_part
    );
    println!("file: {} bytes", writer.total);
    if count >= 20_000 && tally.rarest() < 50 {
        return Err(io::Error::other("a branch is rare"));
    }
    Ok(())
}
