fn f(x: u8) { match x { 1 if g() => 1, _ => 2 } }
