enum A{} struct B; enum E{A,B}
use Undeclared::*;
