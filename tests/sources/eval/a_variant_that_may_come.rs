#[non_exhaustive]
enum E { A }
fn f(x: E) { match x { E::A => 1 } }
