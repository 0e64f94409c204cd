struct S(&!,!,&E); enum E{}
use Undeclared::*;
