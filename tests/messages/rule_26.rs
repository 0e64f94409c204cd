// Rule 26: a missing field
struct S { a: u8, b: u8 }

pub fn f(x: S) -> u8 {
    match x {
        S { a: _ } => 0,
    }
}
