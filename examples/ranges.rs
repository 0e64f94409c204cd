// Ranges that lie in one another, touch, or leave a gap.
fn grade(points: u8) -> char {
    match points {
        90..=100 => 'a',
        75..90 => 'b',
        50..75 => 'c',
        0..50 => 'd',
    }
}

fn band(n: u16) -> u8 {
    match n {
        0..=999 => 0,
        100..=199 => 1,
        1_000.. => 2,
        500 => 3,
    }
}

fn hours(h: i8) -> u8 {
    match h {
        0..6 => 0,
        6..12 => 1,
        12..18 => 2,
        18..24 => 3,
        ..0 => 4,
        24.. => 5,
    }
}
