fn f(x: bool) {
    match x {
        _ => {
é
        }
    }
}
