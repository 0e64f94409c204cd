// A missing length
pub fn f(x: &[bool]) -> u8 {
    match x {
        [] => 0,
        [true, ..] => 1,
    }
}
