fn reference_on_a_number(x:u8){match x{&_=>1}}
fn mutable_reference_on_a_number(x:u8){match x{&mut _=>1}}
fn reference_on_a_reference(x:&u8){match x{&_=>1}}
fn reference_on_a_mutable_reference(x:&mut u8){match x{&_=>1}}
fn mutable_reference_on_a_reference(x:&u8){match x{&mut _=>1}}
fn mutable_reference_on_a_mutable_reference(x:&mut u8){match x{&mut _=>1}}
fn two_references_written_as_one_mark(x:&&u8){match x{&&_=>1}}
fn two_references_on_one(x:&u8){match x{&&_=>1}}
fn two_references_on_none(x:u8){match x{&&_=>1}}
fn the_inner_one_is_mutable(x:&&mut u8){match x{&&_=>1}}
fn both_as_they_are(x:&&mut u8){match x{&&mut _=>1}}
fn mut_belongs_to_the_reference(x:&mut u8){match x{&mut y=>1}}
fn a_mutable_binding_needs_another_mut(x:&mut u8){match x{&mut mut y=>1}}
fn mut_in_brackets_belongs_to_the_name(x:&u8){match x{&(mut y)=>1}}
fn mut_in_brackets_behind_the_wrong_reference(x:&mut u8){match x{&(mut y)=>1}}
fn reference_on_a_box(x:Box<u8>){match x{&_=>1}}
fn reference_on_a_tuple(x:(&u8,)){match x{&(_,)=>1}}
fn reference_in_a_tuple(x:(&u8,)){match x{(&_,)=>1}}
fn reference_behind_a_star(x:&u8){match *x{&_=>1}}
fn reference_behind_a_star_on_two(x:&&u8){match *x{&_=>1}}
fn reference_to_a_slice(x:&[u8]){match x{&[]=>1,&[_,..]=>2}}
fn reference_to_a_text_has_no_text_behind(x:&&str){match x{&&_=>1}}
fn reference_on_a_text(x:&str){match x{&_=>1}}
fn literal_behind_a_reference(x:Option<&u8>){match x{Some(&0)=>1,Some(&(1..))=>2,None=>3}}
fn in_the_second_alternative(x:&u8){match x{&1|&mut 2=>1,_=>2}}
fn lifetimes_do_not_matter<'a>(x:&'a mut&'a u8){match x{&mut&_=>1}}
