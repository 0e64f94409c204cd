// Rule 14: a type without a size
struct S(str, u8);

pub fn f(x: bool) -> u8 {
    match x { _ => 1 }
}
