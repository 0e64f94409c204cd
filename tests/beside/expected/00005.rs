// shapes/src/lib.rs:59:5
struct Opaque;
enum Colour {
    Black,
    Blue { depth: u8, shade: Opaque },
}
fn matched(x: Colour) {
    match x {
        Colour::Blue { ref depth, .. } => {}
        Colour::Black => {}
    }
}
