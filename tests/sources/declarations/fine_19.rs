struct S(&[u8],&mut[u8],Box<[u8]>,Rc<[u8]>,Arc<[u8]>,&(str));
use Undeclared::*;
