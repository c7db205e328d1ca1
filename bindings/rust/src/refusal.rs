//! The refusals.

use std::error::Error;
use std::fmt;

/// Why a call was refused: the first that applies, in this order, but that 14 is judged right after 2. In a run in stretches 15 comes right before
/// 12, and between the two how far the lists reach: 2 for the transitions, then 14 for the designs. The numbers are the library's.
///
/// ```
/// use goxundar::Refusal;
/// assert_eq!(Refusal::InfiniteReading.number(), 9);
/// assert_eq!(Refusal::from_number(9), Some(Refusal::InfiniteReading));
/// assert_eq!(Refusal::from_number(13), None);
/// assert_eq!(Refusal::InfiniteReading.to_string(), "a reading is infinite");
/// ```
#[derive(Debug, Clone, Copy, PartialEq, Eq, PartialOrd, Ord, Hash)]
#[repr(u32)]
pub enum Refusal {
    /// p, m or r is not 1 to 8, or n not 1 to 4096 (in a stretch of a run 0 to 4096).
    Dimension = 1,
    /// An input has not its exact length, an output is too short, or not exactly one of the constant design and the list of designs is given; or so
    /// of the transitions. Or a [`Transition::Listed`](crate::Transition::Listed) has fewer matrices than there are periods; in a stretch, than the
    /// periods done and n come to.
    Length = 2,
    /// Z or T (each listed one, used or not), H, R or Q has a NaN or an infinity.
    NonFiniteSystem = 3,
    /// A diagonal entry of H or Q is below 0.
    NotPsd = 4,
    /// An off-diagonal entry of Q is not 0.
    QNotDiagonal = 5,
    /// c, d, a1 or P* has a NaN or an infinity.
    NonFiniteStart = 6,
    /// A flag is above 1; P* is not mirrored, or has a negative diagonal entry; or a flagged state has an a1, or an entry in its row or column of
    /// P*, that is not 0.
    StartShape = 7,
    /// An off-diagonal entry of H is not 0.
    NonDiagonalH = 8,
    /// A reading is infinite. A NaN is a gap, and fine.
    InfiniteReading = 9,
    /// T leads from a flagged state into an unflagged one. Of a list it is the first that counts.
    MixedDriven = 10,
    /// R·Q·R', symmetrised, has an entry that is not finite.
    NonFiniteNoise = 11,
    /// There are readings, and none of them is news. Of a run in stretches it is judged in the last one, over all its readings.
    NoInformation = 12,
    /// A [`Design::Listed`](crate::Design::Listed) has fewer designs than there are periods; in a stretch, than the periods done and n come to. If
    /// that is meant so, it is a [`Design::Repeated`](crate::Design::Repeated).
    ListShort = 14,
    /// The saved bytes are not a run that can go on here: their length or a section's count is wrong; p, m or r is not the call's; the periods done
    /// and n are above 4096 together; a tally is out of its range; or a NaN has other bits than 0x7FF8000000000000. What the library saved before it
    /// had [`Run::cov_off`](crate::Run::cov_off) has another length.
    BadSaved = 15,
}

impl Refusal {
    /// All of them, by their numbers.
    pub const ALL: [Refusal; 14] = [
        Refusal::Dimension,
        Refusal::Length,
        Refusal::NonFiniteSystem,
        Refusal::NotPsd,
        Refusal::QNotDiagonal,
        Refusal::NonFiniteStart,
        Refusal::StartShape,
        Refusal::NonDiagonalH,
        Refusal::InfiniteReading,
        Refusal::MixedDriven,
        Refusal::NonFiniteNoise,
        Refusal::NoInformation,
        Refusal::ListShort,
        Refusal::BadSaved,
    ];

    /// Its number, 1 to 12, 14 or 15.
    pub fn number(self) -> u32 {
        self as u32
    }

    /// The refusal of that number. None for 0, an answer, and where no refusal has it.
    pub fn from_number(number: u32) -> Option<Refusal> {
        Refusal::ALL.into_iter().find(|k| k.number() == number)
    }
}

impl fmt::Display for Refusal {
    fn fmt(&self, f: &mut fmt::Formatter<'_>) -> fmt::Result {
        f.write_str(match self {
            Refusal::Dimension => "p, m or r is not 1 to 8, or n not 1 to 4096",
            Refusal::Length => "a part has not the length that the sizes ask for, there is no design, or not a transition for every period",
            Refusal::NonFiniteSystem => "Z, H, T, R or Q has a NaN or an infinity",
            Refusal::NotPsd => "a diagonal entry of H or Q is below 0",
            Refusal::QNotDiagonal => "an off-diagonal entry of Q is not 0",
            Refusal::NonFiniteStart => "c, d, a1 or P* has a NaN or an infinity",
            Refusal::StartShape => "the start has a wrong flag, is not mirrored, has a negative variance, or is not 0 for a flagged state",
            Refusal::NonDiagonalH => "an off-diagonal entry of H is not 0",
            Refusal::InfiniteReading => "a reading is infinite",
            Refusal::MixedDriven => "T leads from a flagged state into an unflagged one",
            Refusal::NonFiniteNoise => "R·Q·R' has an entry that is not finite",
            Refusal::NoInformation => "there are readings, and none of them is news",
            Refusal::ListShort => "the list of designs ends before the periods do, and is not said to repeat its last",
            Refusal::BadSaved => "the saved bytes are damaged, of another model's sizes, of an older library, or of a run with too many periods",
        })
    }
}

impl Error for Refusal {}
