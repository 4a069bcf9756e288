//! Why an event was refused.

use std::error::Error;
use std::fmt;

/// An event that was refused has changed nothing. The discriminants are the numbers of the
/// rules and of the C header.
#[derive(Clone, Copy, Debug, PartialEq, Eq, Hash)]
#[repr(u8)]
pub enum Refusal {
    /// `now` lies before the last accepted one, or past 2^53 - 1 ns.
    Clock = 1,
    /// A space, size, packet number, setting or datagram size is outside its range, or a
    /// PMTUD probe is not in flight.
    Domain = 2,
    /// The packet number is not above the last one sent in its space.
    Number = 3,
    /// No range, over 64, or ranges that are empty, out of order, touching or too high.
    Ranges = 4,
    /// A range holds the packet number that was skipped on purpose.
    Skipped = 5,
    /// 256 records stand in the space, or a queue would pass 256 handles.
    Full = 6,
    /// A time, sum or count would pass 2^53 - 1, or the window 2^30.
    TooLarge = 7,
}

impl Refusal {
    /// 1 to 7.
    pub fn number(self) -> u64 {
        self as u64
    }

    /// `Ok` for 0, which means accepted.
    ///
    /// # Panics
    ///
    /// On a number above 7: the library gives none.
    pub(crate) fn judged(number: u64) -> Result<(), Refusal> {
        Err(match number {
            0 => return Ok(()),
            1 => Refusal::Clock,
            2 => Refusal::Domain,
            3 => Refusal::Number,
            4 => Refusal::Ranges,
            5 => Refusal::Skipped,
            6 => Refusal::Full,
            7 => Refusal::TooLarge,
            _ => panic!("the library answered with refusal {number}"),
        })
    }
}

impl fmt::Display for Refusal {
    fn fmt(&self, f: &mut fmt::Formatter) -> fmt::Result {
        let why = match self {
            Refusal::Clock => "the clock went back, or past 2^53 - 1 ns",
            Refusal::Domain => "an argument is outside its range",
            Refusal::Number => "the packet number is not above the last one sent",
            Refusal::Ranges => "the ranges are not 1 to 64 ascending ranges apart from each other",
            Refusal::Skipped => "a range holds the skipped packet number",
            Refusal::Full => "256 records stand, or a queue would pass 256 handles",
            Refusal::TooLarge => "a time, sum or count would pass its limit",
        };
        write!(f, "refused with {}: {why}", self.number())
    }
}

impl Error for Refusal {}

#[cfg(test)]
mod tests {
    use super::*;

    #[test]
    fn numbers_and_refusals_are_one_to_one() {
        assert_eq!(Refusal::judged(0), Ok(()));
        for number in 1..=7 {
            assert_eq!(Refusal::judged(number).unwrap_err().number(), number);
        }
    }

    #[test]
    fn each_refusal_says_its_number_and_why() {
        let said = Refusal::Skipped.to_string();
        assert_eq!(
            said,
            "refused with 5: a range holds the skipped packet number"
        );
    }
}
