// Rule 29: an empty range
pub fn f(x: u8) -> u8 {
    match x {
        5..5 => 0,
        _ => 1,
    }
}
