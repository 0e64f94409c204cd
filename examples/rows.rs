// Slices by their lengths and items, from both ends, and arrays.
fn ends(row: &[bool]) -> u8 {
    match row {
        [] => 0,
        [true] => 1,
        [true, .., true] => 2,
        [.., false] => 3,
    }
}

fn count(row: &[u8]) -> u8 {
    match row {
        [] => 0,
        [_] => 1,
        [_, _] => 2,
        [_, _, _] => 3,
    }
}

fn middle(row: [bool; 3]) -> bool {
    match row {
        [_, true, _] => true,
        [first, rest @ ..] => first,
    }
}

fn words(row: &[&str]) -> u8 {
    match row {
        ["let", _name, "=", _value @ ..] => 1,
        [_, _, "=", ..] => 2,
        _ => 3,
        ["fn", ..] => 4,
    }
}
