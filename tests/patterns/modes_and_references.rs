enum E<'a>{V(&'a mut u8),W(Box<(u8,u8)>),X(&'a&'a(bool,u8))}
struct N<'a>{p:&'a Option<&'a mut bool>}
fn four_references(x:&&&&bool){match x{true=>1,false=>2}}
fn four_references_two_of_them_written(x:&&&&bool){match x{&&true=>1,&&false=>2}}
fn a_name_takes_the_reference(x:&bool){match x{b@true=>1,b@false=>2}}
fn mutable_then_shared(x:&mut&Option<u8>){match x{Some(a)=>1,None=>2}}
fn shared_then_mutable(x:&&mut Option<u8>){match x{Some(a)=>1,None=>2}}
fn mutable_written_then_shared_written(x:&mut&Option<u8>){match x{&mut&Some(ref a)=>1,&mut&None=>2}}
fn mutable_written_shared_not(x:&mut&Option<u8>){match x{&mut Some(a)=>1,&mut None=>2}}
fn within_a_field_that_is_a_reference(x:E){match x{E::X((true,a))=>1,E::X((false,a))=>2,E::V(_)|E::W(_)=>3}}
fn within_a_field_the_mode_is_no_more_move(x:E){match x{E::X((true,ref a))=>1,_=>2}}
fn within_a_field_written_references_keep_it(x:E){match x{E::X(&&(true,ref a))=>1,_=>2}}
fn a_mutable_reference_in_a_field(x:E){match x{E::V(&mut a)=>1,_=>2}}
fn a_box_is_taken_whole(x:E){match x{E::W((_,_))=>1,_=>2}}
fn a_box_is_no_reference(x:Box<(u8,)>){match x{(_,)=>1}}
fn a_box_behind_a_reference_is_no_reference(x:&Box<(u8,)>){match x{(_,)=>1}}
fn a_reference_to_a_box_is_bound(x:&Box<(u8,)>){match x{&ref b=>1}}
fn a_brace_struct_through_three_references(x:&N){match x{N{p:Some(true)}=>1,N{p:Some(false)|None}=>2}}
fn there_a_reference_may_not_be_written(x:&N){match x{N{p:Some(&mut _)}=>1,_=>2}}
fn there_a_reference_of_another_kind(x:&N){match x{N{p:Some(&_)}=>1,_=>2}}
fn a_reference_to_what_is_empty_has_a_value(x:&Result<bool,!>){match x{Ok(true)=>1,Ok(false)=>2,Err(_)=>3}}
fn a_wildcard_behind_a_reference(x:&&u8){match x{&_=>1}}
fn a_text_in_a_slice(x:&[&str]){match x{["a",..]=>1,[_,..]=>2,[]=>3}}
fn a_text_in_an_option(x:Option<&'static str>){match x{Some("a"|"b")=>1,Some(_)=>2,None=>3}}
fn a_slice_of_slices(x:&[&[bool]]){match x{[[true,..],..]=>1,[[false,..]|[],..]=>2,[]=>3}}
fn an_array_of_references(x:[&bool;2]){match x{[true,&true]=>1,[false,_]|[_,&false]=>2}}
