//! Why a call was refused.
use std::fmt;

macro_rules! refusals {
    ($($name:ident = $number:literal, $words:literal;)*) => {
        #[derive(Clone, Copy, Debug, PartialEq, Eq)]
        pub enum Refusal {
            $(#[doc = $words] $name,)*
        }

        impl Refusal {
            pub fn number(self) -> u32 {
                match self {
                    $(Refusal::$name => $number,)*
                }
            }

            /// The library's number as an answer: 0 is none. The numbers are proved to be these.
            pub(crate) fn check(number: u32) -> Result<(), Refusal> {
                match number {
                    0 => Ok(()),
                    $($number => Err(Refusal::$name),)*
                    other => unreachable!("the library answered {other}"),
                }
            }
        }

        impl fmt::Display for Refusal {
            fn fmt(&self, f: &mut fmt::Formatter<'_>) -> fmt::Result {
                f.write_str(match self {
                    $(Refusal::$name => $words,)*
                })
            }
        }
    };
}

refusals! {
    Sizes = 1, "m is no power of two from 2 to 65,536, or q none from 1 to 4,096";
    Packed = 2, "the packed words are not 2 q ceil(m / 256)";
    Public = 3, "the public words are not q (m - 2)";
    Rows = 4, "rows no power of two from 1 to 65,536, unequal within a system, or q times rows over 1,048,576";
    Columns = 5, "a matrix whose columns are not m";
    Entries = 6, "over 1,048,576 entries in a matrix, slices of unequal length, or counts that don't add up to it";
    Outside = 7, "an entry outside its matrix";
    Segment = 8, "a segment's length is zero, no power of two, or over m / 2";
    Layout = 9, "the layout ends past m / 2";
    Segments = 10, "over 64 segments";
    Length = 11, "a point, vector, table or message is not of the wanted length, or has no such variable";
    Masks = 12, "masks of a value over 1 or of a column past m/2";
    V = 13, "masks for v over log2 q or over 6";
    Counter = 14, "the transcript's counter is 2^32 or more";
    Room = 15, "an output or the scratch is too short";
    ProofWords = 16, "the proof has a wrong number of words";
    Parts = 17, "the lengths of the parts don't add up to the bytes";
    SharedBin = 21, "a shared round of bin does not add up";
    SharedFld = 22, "a shared round of fld does not add up";
    RowBin = 23, "a row round of bin does not add up";
    RowFld = 24, "a row round of fld does not add up";
    EndBin = 25, "the end of bin's outer sum-check does not hold";
    EndFld = 26, "the end of fld's outer sum-check does not hold";
    InnerRound = 27, "an inner round does not add up";
    InnerEnd = 28, "the end of the inner sum-check does not hold";
    SegmentValues = 29, "the segment values do not add up to v_z";
}

impl std::error::Error for Refusal {}
