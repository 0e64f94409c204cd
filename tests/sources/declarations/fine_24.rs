struct S(Option<&S>,&mut[S;0]);
use Undeclared::*;
