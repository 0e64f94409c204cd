// A switch over each kind of type.
enum Unit { Only }
enum Mixed { Zero, One(u8), Named { r#type: bool } }
#[non_exhaustive]
enum Open { A, B }
struct Wrapper(Option<Unit>);

fn flags(x: bool) { match x { true => {} false => {} } }
fn variants(x: Mixed) { match x { Mixed::Named { r#type: true } => {} Mixed::One(1..) => {} Mixed::Zero => {} _ => {} } }
fn one_variant(x: Unit) { match x { Unit::Only => {} } }
fn open(x: Open) { match x { Open::A => {} Open::B => {} _ => {} } }
fn open_missed(x: Open) { match x { Open::A => {} Open::B => {} } }
fn signed(x: i8) { match x { -128..=-1 => {} 0 => {} 1.. => {} } }
fn wide(x: i128) { match x { i if a(i) => {} 170141183460469231731687303715884105727 => {} ..0 => {} _ => {} } }
fn sizes(x: (usize, isize)) { match x { (18446744073709551615.., _) => {} (_, ..=-9223372036854775808) => {} (3, 3) => {} _ => {} } }
fn chars(x: char) { match x { '\u{0}'..='\u{d7ff}' => {} 'z' => {} '\u{e000}' => {} _ => {} } }
fn bytes(x: u8) { match x { b'a'..=b'z' | b'_' => {} b'm' => {} _ => {} } }
fn texts(x: &str) { match x { "b" => {} "a\n\"\\" => {} "" => {} "b" => {} _ => {} } }
fn slices(x: &[bool]) { match x { [true, ..] => {} [.., false] => {} [] => {} [_, _] => {} _ => {} } }
fn arrays(x: [bool; 3]) { match x { [true, ..] => {} [.., true] => {} [_, m, _] => {} } }
fn long_array(x: [bool; 9]) { match x { [true, .., true] => {} [a, ..] => {} } }
fn inside(x: &mut &Wrapper) { match x { Wrapper(Some(Unit::Only)) => {} Wrapper(None) => {} } }
fn boxes(x: Box<u8>) { match x { b => {} } }
