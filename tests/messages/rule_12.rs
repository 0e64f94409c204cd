// Rule 12: a field twice
struct S { a: u8, a: u8 }

pub fn f(x: bool) -> u8 {
    match x { _ => 1 }
}
