// Alternatives, on the top and deep inside; one that no value comes to is told by its place.
enum Suit {
    Clubs,
    Diamonds,
    Hearts,
    Spades,
}

fn is_red(suit: Suit) -> bool {
    match suit {
        Suit::Diamonds | Suit::Hearts => true,
        Suit::Clubs | Suit::Spades | Suit::Hearts => false,
    }
}

fn deal(card: (Suit, u8)) -> u8 {
    match card {
        (Suit::Clubs | Suit::Spades, 1 | 11 | 12 | 13) => 1,
        (Suit::Hearts | Suit::Diamonds, 1..=13) => 2,
        (Suit::Clubs, 1..=13 | 11) => 3,
        (_, 0 | 14..) => 4,
    }
}

fn nested(x: Option<Option<bool>>) -> u8 {
    match x {
        Some(Some(true | false) | None) => 1,
        Some(None | Some(_)) | None => 2,
    }
}
