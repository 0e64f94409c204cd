fn f(x: bool) {
    match x {
        _ => {
r"a\n"
r"\"
r""
r#"a"b"#
r##"a"#b"##
r#""#
r"
"
r#"
"
"#
r#"a"##
r"a"#
br"x"
br#"x"#
br"é"
cr"x\"
cr#"x"#
br#x
cr'a
br'a'
r# "a"
        }
    }
}
