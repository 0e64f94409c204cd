struct S(T);
fn f(x: u8) { match x { _ => 1 } }
