// An unreachable arm
pub fn f(x: Option<bool>) -> u8 {
    match x {
        Some(_) => 0,
        Some(true) => 1,
        None => 2,
    }
}
