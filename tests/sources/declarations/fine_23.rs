struct S(&[S]);
use Undeclared::*;
