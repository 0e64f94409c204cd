enum E{A} use E::*; use E::{A}; use E::*;
use Undeclared::*;
