enum Shape {
}
enum Shape2 {
    Line(Option<i64>),
}
fn matched(x: (Shape, &'static Shape2)) {
    match x {
        (_, &Shape2::Line(Some(_))) => {}
    }
}
