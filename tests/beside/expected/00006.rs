// shapes/src/lib.rs:66:5
fn matched(x: &'static [&'static str]) {
    match x {
        [] => {}
        ["a", rest @ ..] => {}
        [.., "b" | "c"] => {}
        [_, ..] => {}
    }
}
