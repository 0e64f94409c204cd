fn f(x:T){match x{_=>1}} struct T(String,f32,f64,char,Rc<u8>,Arc<i128>,Vec<!>);
use Undeclared::*;
