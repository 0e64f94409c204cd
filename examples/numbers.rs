// Numbers are told exactly: what is left out is a range from one number to another.
fn small(n: u8) -> u8 {
    match n {
        0 => 0,
        1 | 2 | 3 => 1,
        100 => 2,
        0xff => 3,
    }
}

fn sign(n: i64) -> i8 {
    match n {
        ..=-1 => -1,
        0 => 0,
        1..=9_223_372_036_854_775_807 => 1,
    }
}

fn letter(c: char) -> u8 {
    match c {
        'a'..='z' => 1,
        'A'..='Z' => 2,
        '0'..='9' => 3,
        '\u{d7ff}'..='\u{e000}' => 4,
    }
}

// A `usize` has no greatest number that a pattern could be sure of.
fn size(n: usize) -> u8 {
    match n {
        0..=4_294_967_295 => 1,
        4_294_967_296..=18_446_744_073_709_551_615 => 2,
    }
}

fn byte(n: u8) -> u8 {
    match n {
        b'a' => 1,
        97 => 2,
        _ => 3,
    }
}
