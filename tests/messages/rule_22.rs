// Rule 22: mismatched types
pub fn f(x: u8) -> u8 {
    match x {
        true => 0,
        _ => 1,
    }
}
