// Rule 21: a name that is no binding
enum E { A(u8), B }
use E::*;

pub fn f(x: E) -> u8 {
    match x {
        A => 0,
        B => 1,
    }
}
