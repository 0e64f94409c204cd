enum E0 { V0, W(u8, bool) }
fn f0(x: &E0) { match x { E0::V0 => 0, E0::W(0..=100, true) => 1, E0::W(100..=255, _) => 2, E0::W(_, false) => 3, E0::V0 => 4, } }
enum E1 { V0, V1, W(u8, bool) }
fn f1(x: &E1) { match x { E1::V0 => 0, E1::V1 => 1, E1::W(0..=100, true) => 2, E1::W(100..=255, _) => 3, } }
enum E2 { V0, V1, V2, W(u8, bool) }
fn f2(x: &E2) { match x { E2::V0 => 0, E2::V1 => 1, E2::V2 => 2, E2::W(0..=100, true) => 3, E2::W(100..=255, _) => 4, E2::W(_, false) => 5, } }
enum E3 { V0, V1, V2, V3, W(u8, bool) }
fn f3(x: &E3) { match x { E3::V0 => 0, E3::V1 => 1, E3::V2 => 2, E3::V3 => 3, E3::W(0..=100, true) => 4, E3::W(100..=255, _) => 5, E3::V0 => 6, } }
enum E4 { V0, V1, V2, V3, V4, W(u8, bool) }
fn f4(x: &E4) { match x { E4::V0 => 0, E4::V1 => 1, E4::V2 => 2, E4::V3 => 3, E4::V4 => 4, E4::W(0..=100, true) => 5, E4::W(100..=255, _) => 6, E4::W(_, false) => 7, } }
enum E5 { V0, W(u8, bool) }
fn f5(x: &E5) { match x { E5::V0 => 0, E5::W(0..=100, true) => 1, E5::W(100..=255, _) => 2, } }
enum E6 { V0, V1, W(u8, bool) }
fn f6(x: &E6) { match x { E6::V0 => 0, E6::V1 => 1, E6::W(0..=100, true) => 2, E6::W(100..=255, _) => 3, E6::W(_, false) => 4, E6::V0 => 5, } }
enum E7 { V0, V1, V2, W(u8, bool) }
fn f7(x: &E7) { match x { E7::V0 => 0, E7::V1 => 1, E7::V2 => 2, E7::W(0..=100, true) => 3, E7::W(100..=255, _) => 4, } }
enum E8 { V0, V1, V2, V3, W(u8, bool) }
fn f8(x: &E8) { match x { E8::V0 => 0, E8::V1 => 1, E8::V2 => 2, E8::V3 => 3, E8::W(0..=100, true) => 4, E8::W(100..=255, _) => 5, E8::W(_, false) => 6, } }
enum E9 { V0, V1, V2, V3, V4, W(u8, bool) }
fn f9(x: &E9) { match x { E9::V0 => 0, E9::V1 => 1, E9::V2 => 2, E9::V3 => 3, E9::V4 => 4, E9::W(0..=100, true) => 5, E9::W(100..=255, _) => 6, E9::V0 => 7, } }
