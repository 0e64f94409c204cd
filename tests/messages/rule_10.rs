// Rule 10: a name twice
enum A { X }
struct A;

pub fn f(x: bool) -> u8 {
    match x { _ => 1 }
}
