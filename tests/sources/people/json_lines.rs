fn f(x: (bool, bool)) -> u8 {
    match x {
        (true, true) | (false, true) => 1,
        (true, true)
        | (false, true) => 2, // no value
        (true, _) if x.0 => "é",
        (true, _) if x.1 => 4 // last
    }
}
