enum E{A} use E::*; struct A;
use Undeclared::*;
