// Rule 4: an open text
pub fn f(x: &str) -> u8 {
    match x {
        "a => 0,
        _ => 1,
    }
}
