// Cases of which one row is left, or one without a guard stands first: whether what is beside or below its head binds a name, or nothing does.
enum Part { Pair(bool, u8), One(u8), Nothing }

fn caught(x: Part) { match x { all @ Part::Pair(_, _) => {} Part::One(_) => {} Part::Nothing => {} } }
fn below(x: Part) { match x { Part::Pair(second, first) => {} Part::One(all @ _) => {} Part::Nothing => {} } }
fn beside(x: (Part, u8)) { match x { (Part::Pair(_, _), n) => {} (Part::One(_), _) => {} (_, m) => {} } }
fn guarded(x: Part) { match x { Part::Pair(_, _) if ready() => {} Part::Pair(_, _) => {} _ => {} } }
fn lengths(x: &[u8]) { match x { [] => {} [_] => {} all @ [_, ..] => {} } }
