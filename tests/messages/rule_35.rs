// Rule 35: a literal that is not supported
pub fn f(x: f64) -> u8 {
    match x {
        1.0 => 0,
        _ => 1,
    }
}
