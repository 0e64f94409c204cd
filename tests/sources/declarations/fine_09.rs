enum E{f} use E::*; fn f(x:u8){match x{_=>1}}
use Undeclared::*;
