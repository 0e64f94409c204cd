enum E { A, B(u8), C { x: u8, r#fn: bool }, D(), F {} }
#[non_exhaustive]
enum Marked { One, Two(char) }
enum Void {}
#[non_exhaustive]
enum MarkedVoid {}
struct Unit;
struct Pair(u8, bool);
struct Empty();
struct Braces { first: i8, second: Option<char> }
struct NoFields {}
struct Holder { void: Void, byte: u8 }
enum r#match { r#in(u8), Plain }
enum List<'a> { End, More(u8, &'a List<'a>) }
enum Twin { Unit, Pair(u8) }
