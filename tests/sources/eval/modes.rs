fn f(x: &mut (u8, char)) { match x { (a, b) => 1 } }
