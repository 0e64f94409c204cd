fn f(x: i8) { match x { y @ ..0 => 1, _ => 2 } }
