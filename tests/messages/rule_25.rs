// Rule 25: a field twice
struct S { a: u8 }

pub fn f(x: S) -> u8 {
    match x {
        S { a: _, a: _ } => 0,
    }
}
