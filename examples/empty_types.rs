// Types without values: their variants need no arm, but behind a reference one may still stand.
enum Void {}

enum Either {
    Left(u8),
    Right(Void),
}

fn never(x: Void) -> u8 {
    match x {}
}

fn by_reference(x: &Void) -> u8 {
    match x {}
}

fn sure(x: Either) -> u8 {
    match x {
        Either::Left(n) => n,
    }
}

fn unsure(x: &Either) -> u8 {
    match x {
        Either::Left(n) => 1,
    }
}

fn fine(r: Result<u8, !>) -> u8 {
    match r {
        Ok(n) => n,
    }
}

fn idle(r: Result<u8, Void>) -> u8 {
    match r {
        Ok(n) => n,
        Err(_) => 0,
    }
}
