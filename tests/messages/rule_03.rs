// Rule 3: an open comment
pub fn f(x: bool) -> u8 { /* never closed
    match x { _ => 1 }
}
