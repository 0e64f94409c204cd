// What stands in a return type is no function and no arm.
fn f(x: bool) -> fn a {
    match x {
        true => 0,
    }
}

fn g(x: bool) -> [[a => fn b]] fn (u8) c for r#fn {
    match x {
        true => 0,
        true if h() => 1,
    }
}

fn r#fn(x: bool) {
    match x {
        false => 0,
    }
}

enum Fn { Fn }

fn i(x: Fn) -> u8/{ match x { Fn::Fn if fn () => 0, } }

fn j(x: bool) { match x {} }
