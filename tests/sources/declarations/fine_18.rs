struct S(&str,&mut str,Box<str>,Rc<str>,Arc<str>);
use Undeclared::*;
