fn f(x: bool) { match x { _ => {} } }
enum E { A, B, C, D, E, F, G, H, A }
