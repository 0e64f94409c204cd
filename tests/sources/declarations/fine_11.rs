fn f(x:u8){match x{_=>1}} enum f{}
use Undeclared::*;
