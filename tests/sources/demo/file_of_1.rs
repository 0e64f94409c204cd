enum E0 { V0, W(u8, bool) }
fn f0(x: &E0) { match x { E0::V0 => 0, E0::W(0..=100, true) => 1, E0::W(100..=255, _) => 2, E0::W(_, false) => 3, E0::V0 => 4, } }
