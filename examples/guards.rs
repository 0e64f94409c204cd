// A guard may refuse, so an arm with one covers nothing.
enum Op {
    Add,
    Remove,
}

fn apply(op: Op) -> u8 {
    match op {
        Op::Add if ready() => 1,
        Op::Remove => 2,
    }
}

fn parity(n: u8) -> u8 {
    match n {
        n if n % 2 == 0 => 0,
        n if n % 2 == 1 => 1,
    }
}

// Behind an arm without a guard nothing of the same is left, behind one with a guard all of it.
fn twice(n: u8) -> u8 {
    match n {
        0 if first() => 0,
        0 | 0 if second() => 1,
        0 | 1 => 2,
        1 if third() => 3,
        _ => 4,
    }
}
