// Rule 20: an unknown name
enum E { A, B }

pub fn f(x: E) -> u8 {
    match x {
        E::Z => 0,
        _ => 1,
    }
}
