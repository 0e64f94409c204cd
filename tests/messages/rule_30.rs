// Rule 30: a name bound twice
pub fn f(x: (u8, u8)) -> u8 {
    match x {
        (a, a) => 0,
    }
}
