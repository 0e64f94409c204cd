// Rule 34: no reference
pub fn f(x: u8) -> u8 {
    match *x {
        _ => 1,
    }
}
