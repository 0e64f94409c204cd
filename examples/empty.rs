enum Never { }

fn absurd(never: Never) {
    match never { }
}

fn nothing(flag: bool) {
    match flag { }
}
