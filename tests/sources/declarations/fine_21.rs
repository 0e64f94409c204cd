struct S(Box<S>);
use Undeclared::*;
