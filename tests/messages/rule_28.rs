// Rule 28: a literal out of range
pub fn f(x: u8) -> u8 {
    match x {
        300 => 0,
        _ => 1,
    }
}
