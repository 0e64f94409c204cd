// A raw text directly behind white space past ASCII: U+0085, U+200E, U+200F, U+2028 and U+2029.
fn f(x: &str) {
    match x {
        r"}" => 0,
        ‎r#"" => {"# => 1,
        ‏r"{" |  r##""#"## |  r"}" => 2,
    }
}

fn g(x: (bool, &&u8)) {
    match x {
        (true, &&(0..=9 | 9..=20)) => 0,
        (false, _) | (_, &/* all */&_) => 1,
        _ if h() => 2,
    }
}

enum Ä { A(u8, u8) }
use Ä::*;

fn r#match(r#if: Ä) -> u8 {
    match/*{*/ r#if {
        A(1 | 2 | 1, _) | A(2, 1..) if b'{' == b'{' => 3,
        A(1.., ..3) => 4,
    }
}
