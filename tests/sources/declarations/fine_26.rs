enum A{C(&B),D} struct B(A);
use Undeclared::*;
