struct S([&S;0],&[S],&Option<S>);
use Undeclared::*;
