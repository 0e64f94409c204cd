enum E{A(u8),B(&'static u8),C(Box<u8>)}
struct S{a:u8,b:u8}
struct P<'a>(&'a mut u8,&'a &'a u8);
fn ref_behind_a_reference(x:&Option<u8>){match x{Some(ref a)=>1,_=>2}}
fn mut_behind_a_reference(x:&Option<u8>){match x{Some(mut a)=>1,_=>2}}
fn ref_mut_behind_a_reference(x:&mut Option<u8>){match x{Some(ref mut a)=>1,_=>2}}
fn ref_behind_a_mutable_reference(x:&mut Option<u8>){match x{Some(ref a)=>1,_=>2}}
fn mut_behind_a_mutable_reference(x:&mut Option<u8>){match x{Some(mut a)=>1,_=>2}}
fn nothing_written_behind_a_reference(x:&Option<u8>){match x{Some(a)=>1,_=>2}}
fn ref_by_value(x:Option<u8>){match x{Some(ref a)=>1,_=>2}}
fn ref_mut_by_value(x:Option<u8>){match x{Some(ref mut a)=>1,_=>2}}
fn mut_by_value(x:Option<u8>){match x{Some(mut a)=>1,_=>2}}
fn reference_under_ref(x:&Option<&u8>){match x{Some(&a)=>1,_=>2}}
fn mutable_reference_under_ref(x:&Option<&mut u8>){match x{Some(&mut a)=>1,_=>2}}
fn mutable_reference_under_ref_mut(x:&mut Option<&mut u8>){match x{Some(&mut a)=>1,_=>2}}
fn reference_under_move(x:Option<&u8>){match x{Some(&a)=>1,_=>2}}
fn written_reference_keeps_move(x:&Option<u8>){match x{&Some(ref a)=>1,_=>2}}
fn written_reference_keeps_move_for_mut(x:&Option<u8>){match x{&Some(mut a)=>1,_=>2}}
fn written_mutable_reference_keeps_move(x:&mut Option<u8>){match x{&mut Some(ref mut a)=>1,_=>2}}
fn two_written_references_keep_move(x:&&Option<&u8>){match x{&&Some(&a)=>1,_=>2}}
fn one_written_reference_and_one_that_is_not(x:&&Option<u8>){match x{&Some(ref a)=>1,_=>2}}
fn reference_that_is_not_the_type_s(x:&Option<u8>){match x{Some(&a)=>1,_=>2}}
fn a_whole_reference_may_be_bound_by_ref(x:&Option<u8>){match x{ref a=>1}}
fn a_whole_reference_may_be_bound_by_mut(x:&u8){match x{mut a=>1}}
fn star_makes_no_mode(x:&Option<u8>){match *x{Some(ref a)=>1,_=>2}}
fn star_leaves_the_second_reference(x:&&Option<u8>){match *x{Some(ref a)=>1,_=>2}}
fn a_box_makes_no_mode(x:E){match x{E::C(ref a)=>1,_=>2}}
fn a_box_in_a_reference_has_the_reference_s_mode(x:&E){match x{E::C(ref a)=>1,_=>2}}
fn mode_in_a_tuple_is_that_of_the_way_there(x:(&Option<u8>,Option<u8>)){match x{(Some(a),Some(ref b))=>1,_=>2}}
fn mode_in_a_tuple_behind_a_reference(x:(&Option<u8>,Option<u8>)){match x{(Some(ref a),Some(ref b))=>1,_=>2}}
fn mode_goes_back_for_the_next_part(x:(&(u8,),u8)){match x{((a,),mut b)=>1}}
fn shared_within_mutable(x:&mut Option<&Option<u8>>){match x{Some(Some(ref a))=>1,_=>2}}
fn mutable_within_shared(x:&Option<&mut Option<u8>>){match x{Some(Some(a))=>1,_=>2}}
fn short_field_with_ref(x:&S){match x{S{ref a,..}=>1}}
fn short_field_with_mut(x:&S){match x{S{b:_,mut a}=>1}}
fn short_field_with_ref_by_value(x:S){match x{S{ref a,mut b}=>1}}
fn field_that_is_written_out(x:&S){match x{S{a:ref q,..}=>1}}
fn bound_rest_with_ref(x:&[u8]){match x{[_,ref t@..]=>1,_=>2}}
fn bound_rest_with_ref_by_value(x:[u8;2]){match x{[_,ref t@..]=>1}}
fn bound_rest_with_ref_behind_a_written_reference(x:&[u8]){match x{&[_,ref t@..]=>1,_=>2}}
fn item_with_mut(x:&[u8]){match x{[mut a,..]=>1,_=>2}}
fn ref_with_at(x:&Option<u8>){match x{Some(ref a@1)=>1,_=>2}}
fn at_keeps_the_mode(x:&Option<Option<u8>>){match x{Some(a@Some(ref b))=>1,_=>2}}
fn at_does_not_go_through(x:&Option<u8>){match x{a@Some(b)=>1,_=>2}}
fn ref_at_a_reference_then_through_it(x:&Option<u8>){match x{ref a@Some(ref b)=>1,_=>2}}
fn round_brackets_do_not_go_through(x:&u8){match x{(ref a)=>1}}
fn round_brackets_keep_the_mode(x:&Option<u8>){match x{Some((mut a))=>1,_=>2}}
fn or_patterns_do_not_go_through(x:&u8){match x{ref a@1|ref a=>1}}
fn or_patterns_keep_the_mode(x:&Option<u8>){match x{Some(1|mut a)=>1,_=>2}}
fn one_alternative_goes_through_and_the_other_does_not(x:&Option<u8>){match x{None|&Some(_)=>1}}
fn text_does_not_go_through(x:&(&str,Option<u8>)){match x{("a",Some(ref a))=>1,_=>2}}
fn references_in_a_struct(x:P){match x{P(&mut a,&&b)=>1}}
fn references_in_a_struct_behind_a_reference(x:&P){match x{P(a,&b)=>1}}
fn in_the_second_arm(x:&Option<u8>){match x{Some(0)=>1,Some(mut a)=>2,None=>3}}
fn wildcards_have_no_mode(x:&Option<u8>){match x{Some(_)=>1,None=>2}}
