// Rule 15: a type that contains itself
struct S(S);

pub fn f(x: bool) -> u8 {
    match x { _ => 1 }
}
