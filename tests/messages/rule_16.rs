// Rule 16: a length of an array
struct S([u8; 1u8]);

pub fn f(x: bool) -> u8 {
    match x { _ => 1 }
}
