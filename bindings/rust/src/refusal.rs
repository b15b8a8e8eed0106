//! Why something is refused.

use std::error::Error;
use std::fmt;

/// The reason of a refusal, by its number in the rules. L is a blob's length, n = L - 1, and t the
/// byte before the last.
#[derive(Clone, Copy, Debug, PartialEq, Eq, Hash)]
#[non_exhaustive]
#[repr(u8)]
pub enum Reason {
    /// L, read or to be written, over 524,293.
    LengthOverLimit = 1,
    /// Type byte 5 or 6.
    TypeByte5Or6 = 2,
    /// Any other type byte that names no kind.
    TypeByteUnknown = 3,
    /// 1-bit or Float8 and n = 0.
    NoTrailingCount = 4,
    /// 1-bit and t > 8n; Float8 and t > n - 10, or n < 10.
    TrailingCountTooLarge = 5,
    /// 1-bit and ceil((8n - t) / 8) >= n.
    TrailingBitsTooFew = 6,
    /// Body length unfit for kind and dims; read: or dims 0 in 1-bit or Float8.
    BodyLengthUnfit = 7,
    /// A sparse index not below dims.
    IndexNotBelowDims = 8,
    /// Dims over 65,536.
    DimsOverLimit = 9,
    /// Strict: a sparse index not above the one before it.
    SparseOrder = 10,
    /// Strict: an unused bit of the last 1-bit byte is set.
    UnusedBitSet = 11,
    /// The two vectors' dims differ.
    DimsDiffer = 12,
    /// The two vectors' kinds differ; appending: the blob is not Float32Dense.
    KindsDiffer = 13,
    /// L2 of 1-bit vectors.
    L2OfFloat1Bit = 14,
    /// Output buffer shorter than needed.
    OutputTooShort = 15,
    /// Writer: dims 0 in 1-bit or Float8.
    WriterDims0 = 16,
    /// Scratch shorter than needed.
    ScratchTooShort = 17,
    /// Nearer of two: both distances NaN.
    BothDistancesNan = 18,
    /// A file of vectors ends inside one, its count included.
    FileEndsInside = 19,
}

/// Each reason in words.
const REASONS: [(Reason, &str); 19] = [
    (Reason::LengthOverLimit, "the blob is over 524,293 bytes"),
    (Reason::TypeByte5Or6, "the type byte is 5 or 6"),
    (Reason::TypeByteUnknown, "the type byte names no kind"),
    (
        Reason::NoTrailingCount,
        "a 1-bit or Float8 blob has nothing before its type byte",
    ),
    (
        Reason::TrailingCountTooLarge,
        "the trailing count is too large",
    ),
    (Reason::TrailingBitsTooFew, "the trailing bits are too few"),
    (
        Reason::BodyLengthUnfit,
        "the body length is unfit for kind and dims",
    ),
    (
        Reason::IndexNotBelowDims,
        "a sparse index is not below dims",
    ),
    (Reason::DimsOverLimit, "dims are over 65,536"),
    (
        Reason::SparseOrder,
        "a sparse index is not above the one before it",
    ),
    (Reason::UnusedBitSet, "an unused bit is set"),
    (Reason::DimsDiffer, "dims differ"),
    (Reason::KindsDiffer, "kinds differ"),
    (Reason::L2OfFloat1Bit, "there is no L2 of 1-bit vectors"),
    (Reason::OutputTooShort, "the output buffer is too short"),
    (
        Reason::WriterDims0,
        "a 1-bit or Float8 vector cannot have dims 0",
    ),
    (Reason::ScratchTooShort, "scratch is too short"),
    (Reason::BothDistancesNan, "both distances are NaN"),
    (Reason::FileEndsInside, "the file ends inside a vector"),
];

impl Reason {
    /// The reason of a number; numbers may have gaps.
    fn numbered(number: u32) -> Option<Reason> {
        let mut reasons = REASONS.iter().map(|&(reason, _)| reason);
        reasons.find(|reason| reason.number() == number)
    }

    fn number(self) -> u32 {
        u32::from(self as u8)
    }

    fn words(self) -> &'static str {
        let mut reasons = REASONS.iter();
        let found = reasons.find(|&&(reason, _)| reason == self);
        found.expect("every reason has words").1
    }
}

/// Which of several blobs a refusal is about.
#[derive(Clone, Copy, Debug, PartialEq, Eq, Hash)]
pub enum Which {
    /// The first blob or candidate.
    First,
    /// The second blob or candidate.
    Second,
    /// The probe.
    Probe,
}

/// A refusal: its reason, and what it carries.
#[derive(Clone, Copy, Debug, PartialEq, Eq, Hash)]
pub struct Refusal {
    reason: Reason,
    entry: Option<usize>,
    needed: Option<usize>,
    place: Option<usize>,
    which: Option<Which>,
}

impl Refusal {
    /// The refusal of a number that an export answered, or none for 0.
    pub(crate) fn numbered(number: u32) -> Option<Refusal> {
        if number == 0 {
            return None;
        }
        Some(Refusal {
            reason: Reason::numbered(number).expect("an export answers a refusal's number"),
            entry: None,
            needed: None,
            place: None,
            which: None,
        })
    }

    /// With the entry that is wrong, where the reason names one.
    pub(crate) fn naming(mut self, entry: usize) -> Refusal {
        if matches!(self.reason, Reason::IndexNotBelowDims | Reason::SparseOrder) {
            self.entry = Some(entry);
        }
        self
    }

    /// With the need, where the reason carries one.
    pub(crate) fn needing(mut self, needed: usize) -> Refusal {
        if matches!(
            self.reason,
            Reason::OutputTooShort | Reason::ScratchTooShort
        ) {
            self.needed = Some(needed);
        }
        self
    }

    /// With the place where a vector starts, where the reason carries one.
    pub(crate) fn starting(mut self, place: usize) -> Refusal {
        if self.reason == Reason::FileEndsInside {
            self.place = Some(place);
        }
        self
    }

    /// With the blob that it is about, by the field `which` of an answer.
    pub(crate) fn about(mut self, which: u64) -> Refusal {
        self.which = match which {
            1 => Some(Which::First),
            2 => Some(Which::Second),
            3 => Some(Which::Probe),
            _ => None,
        };
        self
    }

    /// Why.
    pub fn reason(&self) -> Reason {
        self.reason
    }

    /// The number that the rules give the reason.
    pub fn number(&self) -> u32 {
        self.reason.number()
    }

    /// The first entry whose index is not below dims, of [`Reason::IndexNotBelowDims`], or not above the one
    /// before it, of [`Reason::SparseOrder`]: counted from 0 in the order in which the entries are stored.
    pub fn entry(&self) -> Option<usize> {
        self.entry
    }

    /// How long the buffer has to be, where it is appended to how many bytes after the fill: of
    /// [`Reason::OutputTooShort`] and [`Reason::ScratchTooShort`] only.
    pub fn needed(&self) -> Option<usize> {
        self.needed
    }

    /// Where the vector starts inside which its file ends: of [`Reason::FileEndsInside`] only.
    pub fn place(&self) -> Option<usize> {
        self.place
    }

    /// Which blob of a distance or of the nearer of two cannot be read; nothing where the refusal is
    /// about the vectors together, or where there is only one blob.
    pub fn which(&self) -> Option<Which> {
        self.which
    }
}

impl fmt::Display for Refusal {
    fn fmt(&self, f: &mut fmt::Formatter<'_>) -> fmt::Result {
        write!(f, "refusal {}: {}", self.number(), self.reason.words())?;
        if let Some(entry) = self.entry {
            write!(f, ", at entry {}", entry)?;
        }
        if let Some(needed) = self.needed {
            write!(f, ", {} bytes are needed", needed)?;
        }
        if let Some(place) = self.place {
            write!(f, ", which starts at {}", place)?;
        }
        match self.which {
            Some(Which::First) => write!(f, " (the first blob)"),
            Some(Which::Second) => write!(f, " (the second blob)"),
            Some(Which::Probe) => write!(f, " (the probe)"),
            None => Ok(()),
        }
    }
}

impl Error for Refusal {}

#[cfg(test)]
mod tests {
    use super::*;

    /// The numbers that have a reason.
    const NUMBERS: std::ops::RangeInclusive<u32> = 1..=19;

    #[test]
    fn reasons_are_found_by_their_numbers() {
        assert_eq!(Refusal::numbered(0), None);
        assert_eq!(REASONS.len(), NUMBERS.count());
        for number in NUMBERS {
            assert_eq!(Refusal::numbered(number).map(|r| r.number()), Some(number));
        }
        assert_eq!(Reason::numbered(0), None);
        assert_eq!(Reason::numbered(NUMBERS.end() + 1), None);
    }

    #[test]
    fn every_reason_has_words_of_its_own() {
        for (i, (reason, words)) in REASONS.iter().enumerate() {
            assert_eq!(reason.words(), *words);
            assert!(REASONS[..i].iter().all(|(_, others)| others != words));
        }
    }

    #[test]
    fn a_reason_carries_what_the_rules_say() {
        for number in NUMBERS {
            let refusal = Refusal::numbered(number).unwrap();
            let refusal = refusal.naming(6).needing(7).starting(8);
            let (names, needs) = (number == 8 || number == 10, number == 15 || number == 17);
            assert_eq!(refusal.entry(), if names { Some(6) } else { None });
            assert_eq!(refusal.needed(), if needs { Some(7) } else { None });
            assert_eq!(refusal.place(), if number == 19 { Some(8) } else { None });
        }
    }
}
