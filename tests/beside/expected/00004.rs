// shapes/src/lib.rs:45:5
enum Ordering {
    Less,
    Equal,
    Greater,
}
fn matched(x: Ordering) {
    match x {
        Ordering::Less => {}
        Ordering::Equal | Ordering::Greater => {}
    }
}
