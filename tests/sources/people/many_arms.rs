enum E {
    A0, A1, A2, A3, A4, A5, A6, A7, A8, A9,
    A10, A11, A12, A13, A14, A15, A16, A17, A18, A19,
}

fn f(e: E) -> u8 {
    match e {
        E::A0 => 0,
    }
}
