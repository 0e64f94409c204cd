// An unreachable alternative
pub fn f(x: u8) -> u8 {
    match x {
        0 | 1 | 0 => 0,
        _ => 1,
    }
}
