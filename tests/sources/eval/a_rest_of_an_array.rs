fn f(x: [u8; 4]) { match x { [a, r @ .., b] => 1 } }
