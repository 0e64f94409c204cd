enum E { A(u8, bool), B }
fn f(x: E) { match x { w @ E::A(n, _) => 1, E::B => 2 } }
