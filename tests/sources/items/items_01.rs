enum E {}
enum E{A}
enum E{A,}
enum E{A,B}
enum E{A(u8)}
enum E{A(u8,)}
enum E{A()}
enum E{A{}}
enum E{A{x:u8,y:!}}
enum E{A=1,B}
enum E{A=(1,2),B}
enum E{A=1 B}
enum E{A(u8)=1}
enum E{#[a]A,#[b]B}
enum E{A(pub u8)}
enum E{A(pub(crate) u8)}
enum E{A(pub(self) u8)}
enum E{A(pub(super) u8)}
enum E{A(pub(in a::b) u8)}
enum E{A(pub(u8,))}
enum E<'a>{A(&'a u8)}
enum E<'a,'b:'a,>{A}
enum E<'a:'b+'c>{A}
enum E<>{A}
enum r#fn{A}
struct S;
struct S();
struct S(u8,pub !);
struct S{}
struct S{pub(crate) x:u8}
struct S{#[a] x:u8}
struct S<'a>{x:&'a u8,y:[u8]}
struct S<'a>(u8);
struct S<'a>;
struct S(A<B<C>>);
struct S{r#type:[u8;2]}
use E::*;
use E::{A};
use E::{A,B,};
use E::{};
pub use E::*;
pub(crate) enum E{}
#[a] pub struct S;
#[a]#[b(c)] struct S;
struct A;struct B;
fn f(x:u8){match x{}}
fn f(x:u8){match *x{_=>1}}
pub fn f<'a>(x:&'a u8)->u8{match x{_=>1,_=>2}}
x
