fn f(x:u8){match x{_=>1}} enum E{f{x:u8}} use E::{f};
use Undeclared::*;
