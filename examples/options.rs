// Options and results, one in another: what is missing is told field by field.
fn first_set(a: Option<u8>) -> u8 {
    match a {
        Some(0) => 0,
        Some(n) => n,
    }
}

fn pair(p: (Option<bool>, Option<bool>)) -> u8 {
    match p {
        (Some(true), _) => 1,
        (None, Some(_)) => 2,
        (_, None) => 3,
    }
}

fn outcome(r: Result<Option<char>, ()>) -> u8 {
    match r {
        Ok(Some(_)) => 1,
        Ok(None) => 2,
        Err(()) => 3,
        Err(_) => 4,
    }
}
