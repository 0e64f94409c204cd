enum E{A} fn A(x:u8){match x{_=>1}}
use Undeclared::*;
