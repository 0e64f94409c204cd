// Rule 13: an unknown type
struct S(Foo);

pub fn f(x: bool) -> u8 {
    match x { _ => 1 }
}
