// Rule 24: an unknown field
struct S { a: u8 }

pub fn f(x: S) -> u8 {
    match x {
        S { a: 0, z: _ } => 0,
        _ => 1,
    }
}
