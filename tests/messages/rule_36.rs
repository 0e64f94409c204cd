// Rule 36: a type without a finite value
struct S<'a>(&'a S<'a>);

pub fn f(x: bool) -> u8 {
    match x { _ => 1 }
}
