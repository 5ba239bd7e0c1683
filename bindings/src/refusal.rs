use core::error::Error;
use core::fmt;

/// Why a call was refused. A refused call changes neither the heap nor its arena nor a lent row.
///
/// Each call's own page says which refusals it can give, in the order in which it tests them; the first one that is due
/// is given. [`number`](Refusal::number) is the number that the paper, C and the wire have for it.
///
/// ```
/// use leanlantern::{Lantern, Refusal};
///
/// let mut arena = [0; 64];
/// let mut lantern = Lantern::new(&mut arena);
/// let refusal = lantern.allocate(24, 8).unwrap_err();
/// assert_eq!(refusal, Refusal::Unopened);
/// assert_eq!(refusal.number(), 3);
/// assert_eq!(refusal.to_string(), "refusal 3: the heap is not opened");
/// ```
#[derive(Clone, Copy, Debug, PartialEq, Eq, Hash)]
#[non_exhaustive]
pub enum Refusal {
    /// 1: no heap can be made of what was lent. The base is 0, the arena has over 16,777,216 bytes (16 MiB) or ends
    /// above 2^63, more bytes are named than it has, or under 16 of them are left after rounding.
    BadOpening,
    /// 2: the heap is opened already.
    AlreadyOpened,
    /// 3: the heap is not opened.
    Unopened,
    /// 4: the arena is not as long as it was at the opening.
    OtherLength,
    /// 5: the heap is not sound: its numbers or its holes break a rule.
    NotSound,
    /// 6: the alignment is no power of two, or it and the rounded size are together above 2^63.
    BadLayout,
    /// 7: no hole suits.
    NoRoom {
        /// How many holes there are.
        holes: u64,
    },
    /// 8: the span is no block that could be held: it is not aligned, lies outside, overlaps a hole, or leaves a
    /// stretch of 8 bytes.
    BadSpan,
    /// 9: the arena ends before the bytes that are to be added.
    PastArena,
    /// 10: the stretch, which is the block and the hole that touches its end, less the new rounded size is neither 0
    /// nor at least 16.
    BadStretch,
    /// A number that this version of the package has no name for; a later version of the library may give one.
    Other(u64),
}

impl Refusal {
    /// The refusal of a number that is not 0. The count is the number of holes where it is 7.
    #[inline]
    pub(crate) fn of(number: u64, count: u64) -> Refusal {
        match number {
            1 => Refusal::BadOpening,
            2 => Refusal::AlreadyOpened,
            3 => Refusal::Unopened,
            4 => Refusal::OtherLength,
            5 => Refusal::NotSound,
            6 => Refusal::BadLayout,
            7 => Refusal::NoRoom { holes: count },
            8 => Refusal::BadSpan,
            9 => Refusal::PastArena,
            10 => Refusal::BadStretch,
            _ => Refusal::Other(number),
        }
    }

    /// The refusal's number, as the paper, C and the wire have it.
    pub const fn number(self) -> u64 {
        match self {
            Refusal::BadOpening => 1,
            Refusal::AlreadyOpened => 2,
            Refusal::Unopened => 3,
            Refusal::OtherLength => 4,
            Refusal::NotSound => 5,
            Refusal::BadLayout => 6,
            Refusal::NoRoom { .. } => 7,
            Refusal::BadSpan => 8,
            Refusal::PastArena => 9,
            Refusal::BadStretch => 10,
            Refusal::Other(number) => number,
        }
    }
}

impl fmt::Display for Refusal {
    fn fmt(&self, f: &mut fmt::Formatter<'_>) -> fmt::Result {
        write!(f, "refusal {}: ", self.number())?;
        match self {
            Refusal::BadOpening => f.write_str("no heap can be made of what was lent"),
            Refusal::AlreadyOpened => f.write_str("the heap is opened already"),
            Refusal::Unopened => f.write_str("the heap is not opened"),
            Refusal::OtherLength => f.write_str("the arena is not as long as it was at the opening"),
            Refusal::NotSound => f.write_str("the heap is not sound"),
            Refusal::BadLayout => f.write_str("the alignment is no power of two, or the size is too large"),
            Refusal::NoRoom { holes } => write!(f, "no hole suits, of {holes}"),
            Refusal::BadSpan => f.write_str("the span is no block that could be held"),
            Refusal::PastArena => f.write_str("the arena ends before the bytes that are to be added"),
            Refusal::BadStretch => f.write_str("the stretch less the new rounded size is neither 0 nor at least 16"),
            Refusal::Other(_) => f.write_str("a refusal that this version has no name for"),
        }
    }
}

impl Error for Refusal {}

#[cfg(test)]
mod tests {
    use super::Refusal;

    #[test]
    fn a_number_stays_the_number() {
        for number in (1..100).chain([1 << 32, u64::MAX]) {
            assert_eq!(Refusal::of(number, 5).number(), number);
        }
    }

    #[test]
    fn the_count_goes_with_7_alone() {
        assert_eq!(Refusal::of(7, 5), Refusal::NoRoom { holes: 5 });
        assert_eq!(Refusal::of(8, 5), Refusal::BadSpan);
        assert_eq!(Refusal::of(11, 5), Refusal::Other(11));
        assert_eq!(Refusal::of(u64::MAX, 5), Refusal::Other(u64::MAX));
    }
}
