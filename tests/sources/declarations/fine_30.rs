enum E{A,B} use E::{B,A}; use Option::{Some}; use Result::*;
use Undeclared::*;
