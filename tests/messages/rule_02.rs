// Rule 2: no token
pub fn f(x: bool) -> u8 {
    match x {
        true => 'ab',
        false => 1,
    }
}
