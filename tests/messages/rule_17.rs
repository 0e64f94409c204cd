// Rule 17: a wrong number of arguments
struct S(Option<u8, u8>);

pub fn f(x: bool) -> u8 {
    match x { _ => 1 }
}
