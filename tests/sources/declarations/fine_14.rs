enum E{A,B,a} enum F{A}
use Undeclared::*;
