// Rule 23: a wrong number of parts
pub fn f(x: (u8, u8)) -> u8 {
    match x {
        (1,) => 0,
        _ => 1,
    }
}
