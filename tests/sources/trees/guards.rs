// Guards are asked in order, once for each way in which the arm matches.
fn one_way(x: u8) { match x { 0 if a() => {} 0 if b() => {} 0 => {} _ if c() => {} n => {} } }
fn two_ways(x: (u8, u8)) { match x { (n, _) | (_, n) if a(n) => {} _ => {} } }
fn same_twice(x: u8) { match x { 1 | 1 | 2 if a() => {} _ => {} } }
fn nothing_left(x: bool) { match x { true if a() => {} false if b() => {} } }
fn last(x: Option<u8>) { match x { Some(n) if a(n) => {} None => {} Some(n) => {} } }
fn all(x: ()) { match x { () if a() => {} () if b() => {} () if c() => {} } }
