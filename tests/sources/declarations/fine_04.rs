enum E{A} enum F{A} use E::*; use F::*;
use Undeclared::*;
