fn g(x: u8) { match x { true => 1 } }
fn f(x: u8) { match x { y => 1 } }
