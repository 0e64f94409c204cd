// One number left out
pub fn f(x: u8) -> u8 {
    match x {
        0..200 => 0,
        201.. => 1,
    }
}
