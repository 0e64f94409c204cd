enum E{A,B}
fn number(x:u8){match *x{_=>1}}
fn reference(x:&u8){match *x{_=>1}}
fn mutable_reference(x:&mut u8){match *x{_=>1}}
fn two_references(x:&&u8){match *x{_=>1}}
fn boxed(x:Box<u8>){match *x{_=>1}}
fn counted(x:Rc<u8>){match *x{_=>1}}
fn string(x:String){match *x{_=>1}}
fn tuple_of_a_reference(x:(&u8,)){match *x{_=>1}}
fn reference_in_round_brackets(x:(&u8)){match *x{_=>1}}
fn declared(x:E){match *x{E::A=>1,E::B=>2}}
fn never(x:!){match *x{}}
fn reference_to_never(x:&!){match *x{}}
fn slice(x:&[u8]){match *x{[]=>1,[_,..]=>2}}
fn text(x:&str){match *x{_=>1}}
fn without_arms(x:u8){match *x{}}
fn before_an_unknown_name(x:u8){match *x{E::C=>1}}
fn before_a_bad_pattern(x:E){match *x{1.5=>1,a::b::c=>2}}
fn without_a_star(x:u8){match x{_=>1}}
fn with_a_space(x:u8){match * x{_=>1}}
