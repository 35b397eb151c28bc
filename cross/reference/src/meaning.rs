//! What sent numbers mean.

/// A temperature in tenths of a degree Celsius: value - 2731 (PROTOCOL 9.11).
pub fn tenths_celsius(value: i16) -> i32 {
    i32::from(value) - 2_731
}

/// A current, which is sent in 100 mA, charge positive, in mA (PROTOCOL 9.10).
pub fn milliamps(value: i16) -> i32 {
    i32::from(value) * 100
}
