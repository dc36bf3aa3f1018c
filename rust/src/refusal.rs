//! The refusals: the fourteen numbers that a call may answer, and what each says.

use std::error::Error;
use std::fmt;

/// Why a call was refused. The call has changed nothing.
///
/// Each call has its reasons in a fixed order, listed in `docs/CALLS.md`; a refusal is the first that holds.
///
/// What a running decoder meets: [`Refusal::NotReady`] means later. Damaged bins show, if at all, as
/// [`Refusal::TooEarly`] or [`Refusal::BinsRemain`], and a damaged count as [`Refusal::CountTooLarge`] too. To conceal
/// them, write a set of your own choice, [`CtuSet::OFF`](crate::CtuSet::OFF) or another, and throw its bins away: that
/// stores the set and moves on to the next CTU. Every other refusal says that the decoder's own books are wrong.
///
/// ```
/// use steamgusset::Refusal;
///
/// assert_eq!(Refusal::TooEarly.number(), 5);
/// assert_eq!(Refusal::TooEarly.to_string(), "refused 5: the bins end too early");
/// assert_eq!(Refusal::from_number(10), Some(Refusal::NotReady));
/// assert_eq!(Refusal::from_number(0), None);
/// ```
#[derive(Clone, Copy, Debug, PartialEq, Eq, PartialOrd, Ord, Hash)]
#[repr(u32)]
pub enum Refusal {
    /// 1: the description breaks a rule.
    Description = 1,
    /// 2: a lent buffer, or the samples delivered, have the wrong length.
    Length,
    /// 3: no such component or CTB number.
    NoSuchBlock,
    /// 4: the declared count exceeds 8 times the bytes given.
    CountTooLarge,
    /// 5: the bins end too early.
    TooEarly,
    /// 6: bins remain after the CTU.
    BinsRemain,
    /// 7: every CTU already has its set.
    AllRead,
    /// 8: a delivered sample exceeds 2^depth - 1, by the depth of its component.
    SampleTooLarge,
    /// 9: that CTB was delivered before.
    DeliveredBefore,
    /// 10: filter is not ready. The CTU has no set yet, or the CTB or one of its neighbours was not delivered yet.
    NotReady,
    /// 11: that CTB was filtered before.
    FilteredBefore,
    /// 12: no bins mean this set.
    NoBins,
    /// 13: the bins do not fit the buffer.
    NoRoom,
    /// 14: stored data that no accepted call leaves.
    Stored,
}

impl Refusal {
    /// All refusals, number 1 first.
    pub const ALL: [Refusal; 14] = [
        Refusal::Description,
        Refusal::Length,
        Refusal::NoSuchBlock,
        Refusal::CountTooLarge,
        Refusal::TooEarly,
        Refusal::BinsRemain,
        Refusal::AllRead,
        Refusal::SampleTooLarge,
        Refusal::DeliveredBefore,
        Refusal::NotReady,
        Refusal::FilteredBefore,
        Refusal::NoBins,
        Refusal::NoRoom,
        Refusal::Stored,
    ];

    /// Its number, 1 to 14, as the C interface answers it.
    #[must_use]
    pub const fn number(self) -> u32 {
        self as u32
    }

    /// The refusal that has this number, if one has.
    #[must_use]
    pub fn from_number(number: u32) -> Option<Refusal> {
        Refusal::ALL.into_iter().find(|refusal| refusal.number() == number)
    }

    /// What it says, in the words of `docs/CALLS.md`.
    #[must_use]
    pub const fn reason(self) -> &'static str {
        match self {
            Refusal::Description => "the description breaks a rule",
            Refusal::Length => "a lent buffer, or the samples delivered, have the wrong length",
            Refusal::NoSuchBlock => "no such component or CTB number",
            Refusal::CountTooLarge => "the declared count exceeds 8 times the bytes given",
            Refusal::TooEarly => "the bins end too early",
            Refusal::BinsRemain => "bins remain after the CTU",
            Refusal::AllRead => "every CTU already has its set",
            Refusal::SampleTooLarge => "a delivered sample exceeds 2^depth - 1",
            Refusal::DeliveredBefore => "that CTB was delivered before",
            Refusal::NotReady => "filter is not ready",
            Refusal::FilteredBefore => "that CTB was filtered before",
            Refusal::NoBins => "no bins mean this set",
            Refusal::NoRoom => "the bins do not fit the buffer",
            Refusal::Stored => "stored data that no accepted call leaves",
        }
    }
}

impl fmt::Display for Refusal {
    fn fmt(&self, out: &mut fmt::Formatter) -> fmt::Result {
        write!(out, "refused {}: {}", self.number(), self.reason())
    }
}

impl Error for Refusal {}
