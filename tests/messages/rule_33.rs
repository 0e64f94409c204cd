// Rule 33: an open range in a slice
pub fn f(x: &[u8]) -> u8 {
    match x {
        [1.., _] => 0,
        _ => 1,
    }
}
