fn f(x:u8){match x{_=>1}} struct f{x:u8}
use Undeclared::*;
