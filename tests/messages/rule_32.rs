// Rule 32: a mode that may not be written
pub fn f(x: &Option<u8>) -> u8 {
    match x {
        Some(ref y) => *y,
        None => 1,
    }
}
