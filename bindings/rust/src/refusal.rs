//! The refusal numbers of document 01, and those that document 02 adds.

use crate::shown::pad;
use core::error::Error;
use core::fmt;

macro_rules! refusals {
    ($($number:literal $name:ident $meaning:literal;)*) => {
        /// Why a call was refused. A refused call has changed nothing that it was lent, but for the
        /// mark of an overfull [`Assembly`](crate::sedna::Assembly).
        ///
        /// Later versions may have more of them, so a `match` needs a case for all others.
        ///
        /// ```
        /// use keddorimp::Refusal;
        ///
        /// assert_eq!(Refusal::numbered(10), Some(Refusal::NoRoom));
        /// assert_eq!(Refusal::numbered(17), None);
        /// let words = "refused with 14: no such part of a cut";
        /// assert_eq!(Refusal::NoSuchPart.to_string(), words);
        /// ```
        #[derive(Clone, Copy, Debug, PartialEq, Eq, PartialOrd, Ord, Hash)]
        #[non_exhaustive]
        pub enum Refusal {
            $(
                #[doc = concat!($number, ": ", $meaning, ".")]
                $name,
            )*
            /// A number that this crate has no name for: the archives are newer than the crate.
            ///
            /// Matched as `Refusal::Unlisted { .. }`; [`number`](Refusal::number) has the number.
            ///
            /// ```
            /// use keddorimp::Refusal;
            ///
            /// fn newer(refusal: Refusal) -> Option<u8> {
            ///     match refusal {
            ///         Refusal::Unlisted { .. } => Some(refusal.number()),
            ///         _ => None,
            ///     }
            /// }
            /// assert!(Refusal::ALL.iter().all(|&refusal| newer(refusal).is_none()));
            /// ```
            #[non_exhaustive]
            Unlisted(u8),
        }

        impl Refusal {
            /// All that the documents list, by number.
            pub const ALL: &'static [Self] = &[$(Self::$name),*];

            /// The documents' number.
            pub const fn number(self) -> u8 {
                match self {
                    $(Self::$name => $number,)*
                    Self::Unlisted(number) => number,
                }
            }

            /// The refusal with this number; none for a number that the documents do not list.
            pub const fn numbered(number: u8) -> Option<Self> {
                match number {
                    $($number => Some(Self::$name),)*
                    _ => None,
                }
            }

            /// The documents' words, "given when".
            pub const fn meaning(self) -> &'static str {
                match self {
                    $(Self::$name => $meaning,)*
                    Self::Unlisted(_) => "a number that this crate has no name for",
                }
            }
        }
    };
}

refusals! {
    1 MoreBytes "more bytes are needed";
    2 UnknownInstruction "unknown instruction, or BaseX first byte";
    3 OtherSide "instruction of the other side";
    4 BodyTooLong "body length above 10,240";
    5 FieldCut "the body ends inside a field";
    6 StringFormat "string format byte not 0";
    7 BytesLeftOver "bytes left over";
    8 ValueNotAllowed "value not allowed";
    9 OutOfOrder
        "no conversation goes on with this message; a part or an end that no open gathering takes";
    10 NoRoom "lent output shorter than the bytes to be put there";
    11 NoEncoding "value has no encoding (body above 10,240; BaseX command start)";
    12 BufferOverrun "item or statement longer than its gathering buffer";
    13 BadEscape "FF followed by a byte other than 00 or FF";
    14 NoSuchPart "no such part of a cut";
    15 NotOfForm "another class, a type not named, or text not of its form";
    16 OutOfRange
        "value out of range, a missing zone, more digits than named, or a double with an exponent, \
         INF or NaN";
}

impl Refusal {
    /// The refusal that the archives have told by number.
    pub(crate) fn told(number: u64) -> Self {
        let number = u8::try_from(number).unwrap_or(u8::MAX);
        Self::numbered(number).unwrap_or(Self::Unlisted(number))
    }
}

impl fmt::Display for Refusal {
    fn fmt(&self, f: &mut fmt::Formatter<'_>) -> fmt::Result {
        pad(f, format_args!("refused with {}: {}", self.number(), self.meaning()))
    }
}

impl Error for Refusal {}

#[cfg(test)]
mod tests {
    extern crate std;

    use super::Refusal;
    use std::format;
    use std::string::ToString;

    #[test]
    fn a_number_without_a_name_is_kept() {
        for refusal in Refusal::ALL {
            assert_eq!(Refusal::told(refusal.number().into()), *refusal);
        }
        for number in [0, 17, 255] {
            assert_eq!(Refusal::told(number.into()), Refusal::Unlisted(number));
            assert_eq!(Refusal::Unlisted(number).number(), number);
        }
        assert_eq!(Refusal::told(256 + 1), Refusal::Unlisted(255));
    }

    #[test]
    fn a_width_is_that_of_the_whole() {
        for refusal in Refusal::ALL.iter().chain([&Refusal::Unlisted(255)]) {
            let words = format!("refused with {}: {}", refusal.number(), refusal.meaning());
            assert_eq!(refusal.to_string(), words);
            assert_eq!(format!("{refusal:->120}"), format!("{words:->120}"));
            assert_eq!(format!("{refusal:.12}"), "refused with");
        }
    }
}
