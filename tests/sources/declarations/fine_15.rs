enum E{A{a:u8},B{a:u8,b:u8}} struct S(u8,u8);
use Undeclared::*;
