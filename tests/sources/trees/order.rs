// Which place is looked at, and in which order rows stand after alternatives were taken apart.
enum Three { A, B, C }

fn fewest(x: (u8, bool)) { match x { (0, true) => {} (1, true) => {} (_, true) => {} (_, false) => {} } }
fn leftmost(x: (bool, bool)) { match x { (true, true) => {} (false, _) => {} (_, false) => {} } }
fn second_first(x: (u8, (bool, bool))) { match x { (y @ 0 | y, (b, _) | (_, b)) if go(y, b) => {} _ => {} } }
fn only_the_first_row_counts(x: (Three, bool)) { match x { (Three::A, _) => {} (Three::B, true) => {} (_, false) => {} _ => {} } }
fn equal_rows(x: (Three, Three)) { match x { (Three::A | Three::B, Three::A | Three::B) => {} (Three::C, _) | (_, Three::C) => {} } }
fn nested(x: Option<Option<bool>>) { match x { Some(Some(true) | None) | None if go() => {} Some(_ | Some(false)) => {} _ => {} } }
fn dropped(x: (bool, u8)) { match x { (_ | true, 1) => {} (n, m) if go(n, m) => {} (true | false, _) => {} } }
fn three(x: (Three, Three, Three)) { match x { (Three::A, _, Three::B) => {} (_, Three::A, Three::C) => {} (Three::C, Three::B, _) => {} (_, _, _) => {} } }
