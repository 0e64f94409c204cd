// Ranges that overlap in one number
#![warn(overlapping_range_endpoints)]
pub fn f(x: u8) -> u8 {
    match x {
        0..=100 => 0,
        100..=255 => 1,
    }
}
