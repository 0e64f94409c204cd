fn f(x: u8) { match x { true => 1 } }
