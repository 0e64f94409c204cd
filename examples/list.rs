// A list that would hold itself: rule 15. With `Option<Box<List>>` it is fine.
struct List {
    head: u8,
    tail: Option<List>,
}
