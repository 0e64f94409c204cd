struct T<'a>(&'a u8); struct S<'a>(T<'a>,Option<'a,u8>,Result<u8,'static,u8>);
use Undeclared::*;
