fn f(x: (u8, u8)) { match x { (ref b, ref mut a) => 1 } }
