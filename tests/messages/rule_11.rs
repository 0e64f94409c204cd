// Rule 11: a variant twice
enum E { A, A }

pub fn f(x: bool) -> u8 {
    match x { _ => 1 }
}
