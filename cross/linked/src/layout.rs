//! Size and alignment, and every field's place and size, as `include/hanuzak.h` has them: a difference does not compile.

use crate::types::*;
use core::mem::{align_of, offset_of, size_of};

/// The size of the field that is taken.
const fn size_taken<S, F>(_: fn(S) -> F) -> usize {
    size_of::<F>()
}

macro_rules! layout {
    ($of:ident: $size:literal, $align:literal; $($field:ident $offset:literal $wide:literal),+) => {
        const _: () = {
            assert!(size_of::<$of>() == $size && align_of::<$of>() == $align);
            $(assert!(offset_of!($of, $field) == $offset && size_taken(|of: $of| of.$field) == $wide);)+
        };
    };
}

const _: () = assert!(size_of::<usize>() == 8);
layout!(Analog: 68, 4; cell_count 0 1, cells 2 32, temperature_count 34 1, temperatures 36 16, current 52 2, voltage 54 2, remaining 56 4, total 60 4, cycles 64 2);
layout!(Alarm: 34, 1; cell_count 0 1, cells 1 16, temperature_count 17 1, temperatures 18 8, charge_current 26 1, module_voltage 27 1, discharge_current 28 1, status 29 5);
layout!(Limits: 10, 2; charge_voltage 0 2, discharge_voltage 2 2, charge_current 4 2, discharge_current 6 2, status 8 1);
layout!(Parameters: 24, 2; cell_high_voltage 0 2, cell_low_voltage 2 2, cell_under_voltage 4 2, charge_high_temperature 6 2, charge_low_temperature 8 2, charge_current 10 2, module_high_voltage 12 2, module_low_voltage 14 2, module_under_voltage 16 2, discharge_high_temperature 18 2, discharge_low_temperature 20 2, discharge_current 22 2);
layout!(Module: 164, 4; adr 0 1, on 1 1, link_fault 2 1, analog 4 68, alarm 72 34, limits 106 10, serial 116 16, version 132 5, parameters 138 24);
layout!(Station: 33, 1; ver 0 1, maker 1 32);
layout!(Written: 16, 8; number 0 4, length 8 8);
layout!(Event: 24, 8; kind 0 4, number 4 4, ver 8 1, adr 9 1, cid1 10 1, cid2 11 1, place 12 4, lenid 16 8);
layout!(Receiver: 16, 8; open 0 8, count 8 8);
layout!(Stepped: 40, 8; next 0 16, event 16 24);
layout!(Ran: 56, 8; next 0 16, event 16 24, taken 40 8, held 48 8);
layout!(Listing: 32, 8; receiver 0 16, offset 16 4, frames 20 4, refusals 24 4);
layout!(Listed: 56, 8; next 0 32, taken 32 8, written 40 16);
layout!(Answered: 16, 8; kind 0 4, number 4 4, length 8 8);
layout!(Question: 3, 1; adr 0 1, cid2 1 1, command 2 1);
layout!(Reply: 48, 4; kind 0 4, number 4 4, ver 8 1, code 9 1, flag 10 1, maker 11 32, place 44 4);
