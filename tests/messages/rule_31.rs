// Rule 31: alternatives that differ
pub fn f(x: (u8, u8)) -> u8 {
    match x {
        (a, 1) | (_, a) | (_, _) => 0,
    }
}
