struct S(Vec<S>,Rc<S>,Arc<(S,S)>);
use Undeclared::*;
