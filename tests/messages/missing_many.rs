// Many missing cases
pub fn f(x: u8) -> u8 {
    match x {
        0 | 10 | 20 | 30 | 40 | 50 | 60 | 70 | 80 | 90 => 0,
    }
}
