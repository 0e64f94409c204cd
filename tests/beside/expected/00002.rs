// shapes/src/lib.rs:30:5
enum Colour {
    Red,
    Green(u8),
}
fn matched(x: Colour) {
    match x {
        Colour::Red => {}
        Colour::Green(9 | 200) => {}
        Colour::Green(shade) => {}
    }
}
