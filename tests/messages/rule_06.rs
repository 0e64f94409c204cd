// Rule 6: no item
fnn f(x: bool) -> u8 {
    match x { _ => 1 }
}
