// Texts: finitely many are named, so every other one is still to be matched.
fn keyword(word: &str) -> u8 {
    match word {
        "fn" => 1,
        "let" | "const" => 2,
        "match" => 3,
    }
}

fn answer(word: &str) -> bool {
    match word {
        "yes" | "y" => true,
        "no" | "n" => false,
        "yes" => true,
        _ => false,
    }
}

fn escaped(word: &str) -> u8 {
    match word {
        "\u{41}\n" => 1,
        "A
" => 2,
        _ => 3,
    }
}
