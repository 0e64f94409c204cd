// Variants are found by their names, whether an enum has eight of them or nine.
enum Eight { A, B, C, D, E, F, G, H }
enum Nine { A, B, C, D, E, F, G, H, I }
fn eight(x: Eight) { match x { Eight::H => {} Eight::A => {} Eight::G => {} } }
fn nine(x: Nine) { match x { Nine::I => {} Nine::A | Nine::I => {} Nine::H => {} } }
