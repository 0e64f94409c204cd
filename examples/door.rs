enum Door { Open, Closed, Locked }

fn steps(door: Door) {
    match door {
        Door::Open => 0,
        Door::Closed => 1,
        Door::Locked => 2,
    }
}

fn shut(open: bool) {
    match open {
        true => 1,
        _ => 0,
        false => 2,
    }
}
