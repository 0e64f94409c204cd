// shapes/src/lib.rs:19:9
struct Opaque;
enum Shape {
    Dot,
    Line(Opaque),
    Frame { w: u16, h: u16 },
}
fn matched(x: Shape) {
    match x {
        Shape::Dot => {}
        Shape::Line(_) => {}
        Shape::Frame { w: 0..=9, .. } => {}
        Shape::Frame { w: 10.., h, } if crate::guard() => {}
        Shape::Frame { .. } => {}
    }
}
