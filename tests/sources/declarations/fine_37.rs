enum E{A(&E),B}
use Undeclared::*;
