use E::*; use E::{A}; enum E{A}
use Undeclared::*;
