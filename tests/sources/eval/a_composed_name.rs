fn café(x: bool) { match x { _ => 1 } }
