struct S { a: ! }
struct S { a: () }
struct S { a: (!) }
struct S { a: (!,) }
struct S { a: (!, u8) }
struct S { a: (!, u8,) }
struct S { a: &u8 }
struct S { a: &mut u8 }
struct S { a: &'a u8 }
struct S { a: &'a mut u8 }
struct S { a: &&u8 }
struct S { a: &&mut u8 }
struct S { a: && &u8 }
struct S { a: [u8] }
struct S { a: [u8; 3] }
struct S { a: [u8; 0x10usize] }
struct S { a: A }
struct S { a: A<> }
struct S { a: A<u8> }
struct S { a: A<'a, u8,> }
struct S { a: A<B<C>> }
struct S { a: A<B<C>,> }
x
