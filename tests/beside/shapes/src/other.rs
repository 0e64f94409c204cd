pub enum Colour {
    Black,
    Blue { depth: u8, shade: String },
}
