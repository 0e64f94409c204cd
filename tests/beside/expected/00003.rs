// shapes/src/lib.rs:38:5
enum Shape {
    Dot,
    Line(bool),
    Frame { w: u16, h: u16 },
}
enum Shape2 {
    Dot,
    Line(Option<i64>),
    Frame { w: u16, h: u16 },
}
fn matched(x: (Shape, &'static Shape2)) {
    match x {
        (Shape::Line(true), &Shape2::Line(Some(1))) => {}
        _ => {}
    }
}
