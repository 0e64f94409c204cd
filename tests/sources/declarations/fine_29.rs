struct Option; struct S(Option,Result<Option,u8>);
use Undeclared::*;
