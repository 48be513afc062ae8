//! The refusals.

use core::fmt;

macro_rules! refusals {
    ($($number:literal $name:ident $words:literal;)*) => {
        /// Why a question is refused. Of those that apply the first in this list is the answer: the order is the list's, not the
        /// number's.
        #[derive(Clone, Copy, Debug, PartialEq, Eq)]
        #[non_exhaustive]
        pub enum Refusal {
            $(#[doc = $words] $name,)*
            /// A number that this version of the bindings does not know.
            Other(u64),
        }

        impl Refusal {
            /// The refusal of a number that a function of [`crate::numbers`] returns; of 0 there is none.
            pub fn of(number: u64) -> Option<Refusal> {
                match number {
                    0 => None,
                    $($number => Some(Refusal::$name),)*
                    other => Some(Refusal::Other(other)),
                }
            }

            /// Its number.
            pub fn number(self) -> u64 {
                match self {
                    $(Refusal::$name => $number,)*
                    Refusal::Other(other) => other,
                }
            }

            /// Its words.
            pub fn words(self) -> &'static str {
                match self {
                    $(Refusal::$name => $words,)*
                    Refusal::Other(_) => "none",
                }
            }
        }
    };
}

refusals! {
    1 Mode "mode above 3 or carrier above 1";
    2 Identity "identity above 503";
    3 NarrowbandPorts "narrowband ports not 1 or 2";
    4 CellPorts "cell ports not 1, 2 or 4 in-band, or not 0 in the other modes";
    5 ControlRegion "control region not 1 to 3 in-band, or not 0 in the other modes";
    24 UnequalPorts "mode 0 with cell ports other than the narrowband ports";
    6 Sib1Schedule "SIB1 schedule above 11";
    7 Bitmap "bitmap length not 0, 10 or 40, its buffer too short, or spare bits set";
    21 Messages "a number of the messages that is not listed, a fifth schedule, or a window longer than its period";
    8 NoneAllowed "the bitmap alone allows no subframe";
    18 AllTaken "it allows some, and the anchor or its messages take them all";
    25 NotAnchor "the broadcast of a non-anchor";
    9 N "n above 2^30 - 1, of an acknowledgement above 2^31 - 1";
    10 Field "a field above its largest number, or NCCE 1 with format 1";
    11 Subcarrier "subcarrier field 48 to 63 at 3.75 kHz, 19 to 63 at 15 kHz";
    12 Rmax "Rmax or NPDCCH copies not a power of two, 1 to 2048";
    22 Period "a search space whose period is below 4 subframes";
    23 Offset "a search space whose offset is not below a hyperframe, 10240 subframes";
    13 Mcs "MCS 5 to 15";
    19 Windows "a fifth random access window, a number of a window that is not listed, or its tones past 47";
    20 NeverFree "the windows leave no group of slots ever free on the granted tones";
    14 NoSuchPlace "position or transmitted subframe past the end, or a place outside the grid";
    15 Length "bits not ceil(N * E / 4) bytes, or output not 336 numbers";
    16 Level "level not from 2^-20 to 2^20";
    17 TwoPorts "fill asked for two ports";
    255 TooShort "a cell, grant, walk, windows, search space, answer or amplitudes buffer is too short";
}

impl fmt::Display for Refusal {
    fn fmt(&self, f: &mut fmt::Formatter) -> fmt::Result {
        write!(f, "refused, {}: {}", self.number(), self.words())
    }
}

impl core::error::Error for Refusal {}

/// The number that a call returned, as a result.
pub(crate) fn accepted(number: u64) -> Result<(), Refusal> {
    Refusal::of(number).map_or(Ok(()), Err)
}
