enum Option{A} use Option::{A}; use Result::{Ok,Err};
use Undeclared::*;
