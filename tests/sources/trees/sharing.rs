// Equal nodes are one node; places through different variants are different places.
enum X { P, Q }
enum Y { R, S }
enum E { A(X), B(Y) }
enum Pair { L(bool), M(bool) }

fn both(x: (bool, bool)) { match x { (true, true) => {} _ => {} } }
fn apart(x: E) { match x { E::A(X::P) | E::B(Y::R) => {} _ => {} } }
fn through_two(x: Pair) { match x { Pair::L(true) | Pair::M(true) => {} Pair::L(_) | Pair::M(_) => {} } }
fn four(x: (bool, bool, bool, bool)) { match x { (true, true, _, _) | (_, _, true, true) => {} _ => {} } }
fn misses(x: (Option<bool>, Option<bool>)) { match x { (Some(true), None) => {} (None, Some(false)) => {} } }
