//! NPBCH and SIB1, which an anchor sends by itself. NPBCH's elements and references are always those of a cell in-band with two narrowband
//! ports, four cell ports and a control region of 3.

use crate::cell::Cell;
use crate::downlink::DownlinkPlace;
use crate::numbers;
use crate::refusal::{accepted, Refusal};
use crate::Found;

macro_rules! channel {
    ($($forward:ident $backward:ident $places:literal $found:literal;)*) => {
        impl Cell<'_> {
            $(#[doc = $places]
            pub fn $forward(&self, position: u64) -> Result<DownlinkPlace, Refusal> {
                let mut a = [0; 6];
                accepted(numbers::$forward(
                    self.numbers().get(), self.anchor_bitmap, self.non_anchor_bitmap, position, &mut a,
                ))?;
                Ok(DownlinkPlace::of(a))
            }

            #[doc = $found]
            pub fn $backward(&self, t: u64, slot: u64, l: u64, k: u64) -> Result<Found, Refusal> {
                let mut a = [0; 5];
                accepted(numbers::$backward(
                    self.numbers().get(), self.anchor_bitmap, self.non_anchor_bitmap, t, slot, l, k, &mut a,
                ))?;
                Ok(Found::of(a))
            })*
        }
    };
}

channel! {
    forward_npbch backward_npbch
        "The place of a position of NPBCH, in one period of 64 frames from subframe 0 on: 6400 places."
        "What NPBCH has at a place of subframe t, any t, taken by its number in its period.";
    forward_sib1 backward_sib1
        "The place of a position of SIB1, in one period of 256 frames from subframe 0 on."
        "What SIB1 has at a place of subframe t, any t, taken by its number in its period.";
}
