//! Where a call stops: the numbered refusals, in the words of the checker's paper.

use core::error::Error;
use core::fmt;

/// Each refusal once: its number, its name and the paper's sentence.
macro_rules! refusals {
    ($($number:literal $name:ident $sentence:literal)*) => {
        /// Why a call was refused. It prints its number and the paper's sentence.
        ///
        /// ```
        /// use havdrims::{measure, Refusal};
        ///
        /// let refusal = measure(b"not a rule").unwrap_err();
        /// assert_eq!(refusal, Refusal::RuleMark);
        /// assert_eq!(refusal.number(), 1);
        /// assert_eq!(refusal.to_string(), "refused 1: The rule is shorter than 8 bytes or lacks its mark.");
        /// ```
        #[derive(Clone, Copy, Debug, PartialEq, Eq, PartialOrd, Ord, Hash)]
        #[non_exhaustive]
        pub enum Refusal {
            $(#[doc = concat!(stringify!($number), ": ", $sentence)] $name,)*
            /// A number that this crate does not know, of an archive that is newer.
            Unknown(u32),
        }

        impl Refusal {
            /// The paper's number: 1 to 27 but for 3; or the one that is not known.
            pub fn number(self) -> u32 {
                match self {
                    $(Refusal::$name => $number,)*
                    Refusal::Unknown(number) => number,
                }
            }

            /// The refusal with this number, if there is one.
            pub fn from_number(number: u32) -> Option<Refusal> {
                match number {
                    $($number => Some(Refusal::$name),)*
                    _ => None,
                }
            }

            /// The paper's sentence.
            pub fn sentence(self) -> &'static str {
                match self {
                    $(Refusal::$name => $sentence,)*
                    Refusal::Unknown(_) => "This crate does not know the refusal.",
                }
            }
        }
    };
}

// Number 3 no longer occurs: it was that of a rule without entries.
refusals! {
    1 RuleMark "The rule is shorter than 8 bytes or lacks its mark."
    2 RuleVersion "The rule's version is not 1 or 2."
    4 RuleLength "The count is above 128, a spare byte is not zero, or the length is not 8 + 10 × count."
    5 EntryField "Some kind is above 6, some letter above 31, or some unused field not zero."
    6 Interval "Some low or finite high is above 3,600, some low is above its high, or until has no upper end."
    7 Shape
        "Some entry lacks an operand, or the whole leaves other than one formula (version 1, unless the entry count \
         is 0) or other than one to eight formulas (version 2)."
    8 TooManyWords "The need is above 8,192 words."
    9 ShortPoint "The lent point is shorter than the need."
    10 ForeignPoint "The point does not begin as a point of this library with a copy of this rule."
    11 PointRange "A word of the point is outside its range, as d above the records seen."
    12 LogFormat
        "The log is shorter than 8 bytes, or 16 in version 3, its mark, version or spare bytes are wrong, its length \
         less 8 is no multiple of 8, or it has too many records, dropped ones included."
    13 FewerRecords "The log has fewer records than the point has seen."
    14 TimeFalls
        "Some record after the first still wanted, or where a reason is asked for after the first of all, has a time below \
         that of the record before it, or the first new record's time is below the last time seen."
    15 SheetByte
        "A sheet given to tally has a byte with a bit beyond the number of formulas, or that number is outside 1 to \
         8."
    16 UnknownWord "A word, sign or form of number is unknown or the text is too long."
    17 NotDerived "The grammar does not derive the text."
    18 ShortRule "The lent rule buffer is short."
    19 LogRoom "The number of records is above 1,000,000 or the lent buffer is under 8 + 8 × n bytes."
    20 PointClosed "Carry on is given a closed point."
    21 MoreRecords "Closing is repeated with more records than at its first call that was not refused."
    22 OtherVersion
        "The log's version differs from that of the last carry on or closing with this point that was not refused, and \
         the two are not 2 and 3."
    23 TrimVersion "A version 1 log is to be trimmed."
    24 RecordDropped "The log has dropped the first record wanted or one after it, or any record where a reason is asked for."
    25 ShortLog "The lent buffer for the trimmed log is short."
    26 Settings "A setting, the seconds or the seed is outside its range or the lent log buffer is short."
    27 NoReason "The formula does not exist, the position has no verdict yet or the lent text buffer is short."
}

impl fmt::Display for Refusal {
    fn fmt(&self, f: &mut fmt::Formatter<'_>) -> fmt::Result {
        write!(f, "refused {}: {}", self.number(), self.sentence())
    }
}

impl Error for Refusal {}

/// What a function of the archive returned: 0, or a refusal's number.
pub(crate) fn checked(number: u32) -> Result<(), Refusal> {
    match number {
        0 => Ok(()),
        _ => Err(Refusal::from_number(number).unwrap_or(Refusal::Unknown(number))),
    }
}

#[cfg(test)]
mod tests {
    use super::{checked, Refusal};

    #[test]
    fn numbers_and_sentences() {
        let numbers: Vec<u32> = (0..1_000).filter(|&number| Refusal::from_number(number).is_some()).collect();
        assert_eq!(
            numbers,
            [1, 2, 4, 5, 6, 7, 8, 9, 10, 11, 12, 13, 14, 15, 16, 17, 18, 19, 20, 21, 22, 23, 24, 25, 26, 27]
        );
        for number in numbers {
            let refusal = Refusal::from_number(number).unwrap();
            assert_eq!(refusal.number(), number);
            assert_eq!(checked(number), Err(refusal));
            assert_eq!(refusal.to_string(), format!("refused {number}: {}", refusal.sentence()));
        }
    }

    #[test]
    fn a_number_that_is_not_known_is_a_refusal_too() {
        assert_eq!(checked(0), Ok(()));
        for number in [3, 28, u32::MAX] {
            let refusal = checked(number).unwrap_err();
            assert_eq!((refusal, refusal.number()), (Refusal::Unknown(number), number));
            assert_eq!(refusal.to_string(), format!("refused {number}: This crate does not know the refusal."));
        }
    }
}
