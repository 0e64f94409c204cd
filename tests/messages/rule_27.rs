// Rule 27: two rests
pub fn f(x: &[u8]) -> u8 {
    match x {
        [.., 1, ..] => 0,
        _ => 1,
    }
}
