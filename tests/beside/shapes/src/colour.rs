pub enum Colour {
    Red,
    Green(u8),
}

pub const DIM: u8 = 9;
