// Names in each place: alone, before a pattern, behind references, of middle items, by each mode.
struct Point { x: i8, y: i8 }
enum Shape { Dot(Point), Line { from: Point, to: Point }, Nothing }

fn whole(x: u8) { match x { y => {} } }
fn before(x: Option<u8>) { match x { all @ Some(n @ 1..=9) => {} Some(n) => {} none @ None => {} } }
fn modes(x: (String, String, u8)) { match x { (ref a, ref mut b, mut c) => {} } }
fn through(x: &mut (u8, &Option<u8>)) { match x { (a, Some(b)) => {} (a, None) => {} } }
fn fields(x: &Shape) { match x { Shape::Dot(Point { y, x: 0 }) => {} Shape::Line { to, from: Point { x, .. } } => {} other => {} } }
fn middles(x: [u8; 5]) { match x { [a, rest @ .., 7] => {} [.., last] => {} } }
fn ends(x: &[u8]) { match x { [first, middle @ .., last] => {} all @ [one] => {} [] => {} } }
fn sorted(x: (u8, u8, u8)) { match x { (c, b, a) => {} } }
fn by_alternative(x: (u8, u8)) { match x { (0, n) | (n, 0) if odd(n) => {} (n, _) => {} } }
