fn f(x:u8){match x{#[allow(cfg)] _=>1}}
use Undeclared::*;
