// Rule 5: an unknown escape
pub fn f(x: &str) -> u8 {
    match x {
        "\q" => 0,
        _ => 1,
    }
}
