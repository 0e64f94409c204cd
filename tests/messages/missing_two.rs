// Two missing cases
pub fn f(x: (bool, bool)) -> u8 {
    match x {
        (true, true) => 0,
        (false, false) => 1,
    }
}
