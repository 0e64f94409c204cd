struct str; struct S(str,Vec<str>,[str;1]);
use Undeclared::*;
