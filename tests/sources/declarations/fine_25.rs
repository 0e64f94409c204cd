struct A(B,B); struct B(C,C); struct C;
use Undeclared::*;
