// Rule 18: an import of no enum
enum E { A }
use E::{B};

pub fn f(x: bool) -> u8 {
    match x { _ => 1 }
}
