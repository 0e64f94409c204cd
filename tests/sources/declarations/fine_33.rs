enum E{} use E::*; use E::{};
use Undeclared::*;
