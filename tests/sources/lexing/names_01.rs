fn f(x: bool) {
    match x {
        _ => {
é
é
r#é
日本
a1_
_a
__
matchx
Match
gen
union
r#match
r#a
r#crates
r#_a
r#
r #a
r##x
a-b
        }
    }
}
