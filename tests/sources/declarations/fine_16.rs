struct S(T); struct T;
use Undeclared::*;
