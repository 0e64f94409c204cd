struct S(Result<&S,u8>);
use Undeclared::*;
