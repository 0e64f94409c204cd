enum E{A(u8),B(u8),C(i8),D{a:u8,b:u8}}
struct B1(Box<u8>,Box<u8>,Box<i8>);
fn name_missing_in_the_second(x:E){match x{E::A(a)|E::B(_)=>1,_=>2}}
fn name_missing_in_the_first(x:E){match x{E::A(_)|E::B(a)=>1,_=>2}}
fn another_name(x:E){match x{E::A(a)|E::B(b)=>1,_=>2}}
fn same_name(x:E){match x{E::A(a)|E::B(a)=>1,_=>2}}
fn same_name_raw(x:E){match x{E::A(a)|E::B(r#a)=>1,_=>2}}
fn another_type(x:E){match x{E::A(a)|E::C(a)=>1,_=>2}}
fn equal_opaque_types(x:B1){match x{B1(a,..)|B1(_,a,_)=>1}}
fn opaque_types_with_other_arguments(x:B1){match x{B1(a,..)|B1(..,a)=>1}}
fn another_mode(x:E){match x{E::A(a)|E::B(ref a)=>1,_=>2}}
fn ref_and_ref_mut(x:E){match x{E::A(ref a)|E::B(ref mut a)=>1,_=>2}}
fn same_ref(x:E){match x{E::A(ref a)|E::B(ref a)=>1,_=>2}}
fn a_written_mut_is_no_mode(x:E){match x{E::A(mut a)|E::B(a)=>1,_=>2}}
fn written_and_inherited_mode(x:(Option<u8>,&Option<u8>)){match x{(Some(ref y),_)|(_,Some(y))=>1,_=>2}}
fn inherited_mode_and_move(x:(Option<u8>,&Option<u8>)){match x{(Some(y),_)|(_,Some(y))=>1,_=>2}}
fn inherited_ref_and_ref_mut(x:(&Option<u8>,&mut Option<u8>)){match x{(Some(y),_)|(_,Some(y))=>1,_=>2}}
fn shared_then_mutable_is_shared(x:(&Option<&mut Option<u8>>,&Option<&Option<u8>>)){match x{(Some(Some(y)),_)|(_,Some(Some(y)))=>1,_=>2}}
fn mutable_then_shared_is_shared(x:(&mut Option<&Option<u8>>,&Option<&Option<u8>>)){match x{(Some(Some(y)),_)|(_,Some(Some(y)))=>1,_=>2}}
fn mutable_then_mutable_is_mutable(x:(&mut Option<&mut Option<u8>>,&Option<&Option<u8>>)){match x{(Some(Some(y)),_)|(_,Some(Some(y)))=>1,_=>2}}
fn mutable_written_is_mutable(x:(Option<u8>,&mut Option<u8>)){match x{(Some(ref mut y),_)|(_,Some(y))=>1,_=>2}}
fn reference_and_what_is_behind(x:&u8){match x{&a|a=>1}}
fn three_alternatives_the_last_differs(x:E){match x{E::A(a)|E::B(a)|E::C(_)=>1,_=>2}}
fn order_of_names_does_not_matter(x:(u8,u8)){match x{(a,b@0)|(b,a)=>1}}
fn more_names(x:E){match x{E::D{a,b}|E::D{a,..}=>1,_=>2}}
fn rests_of_slices_of_other_lengths(x:&[u8]){match x{[0,t@..]|[t@..,0]=>1,_=>2}}
fn rests_of_arrays_of_other_lengths(x:[u8;3]){match x{[0,t@..]|[0,1,t@..]=>1,_=>2}}
fn rests_of_arrays_of_one_length(x:[u8;3]){match x{[0,t@..]|[t@..,0]=>1,_=>2}}
fn rest_and_the_whole_slice(x:&[u8]){match x{[0,t@..]|[1,t@..]|[t@..]=>1}}
fn item_and_rest(x:&[u8]){match x{[t]|[t@..]=>1}}
fn in_a_field(x:Option<E>){match x{Some(E::A(a)|E::B(_))=>1,_=>2}}
fn in_round_brackets(x:E){match x{(E::A(a)|E::B(_))=>1,_=>2}}
fn a_leading_mark_does_not_count(x:E){match x{|E::A(a)|E::B(_)=>1,_=>2}}
fn only_the_inner_one_differs(x:(u8,u8)){match x{(a|_,0)|(a,_)=>1}}
fn outer_alternatives_with_all_that_is_written_in_them(x:u8){match x{(a|_)|(a|_)=>1}}
fn both_differ_the_outer_one_is_first(x:(u8,u8)){match x{(a|_,0)|(0,_)=>1,_=>2}}
fn names_that_find_a_variant_are_no_bindings(x:Option<u8>){match x{None|Some(_)=>1}}
fn guarded(x:E){match x{E::A(a)|E::B(_) if g()=>1,_=>2}}
fn second_arm(x:E){match x{E::A(_)|E::B(_)=>1,E::C(a)|E::D{..}=>2}}
fn the_first_or_pattern_of_the_first_arm(x:(E,E)){match x{(E::A(_)|E::B(_),E::A(a)|E::B(_))=>1,(E::A(b)|E::B(_),_)=>2,_=>3}}
fn any_other_rule_is_looked_at_first(x:E){match x{E::A(a)|E::B(_)=>1,E::C(300)=>2,_=>3}}
fn another_rule_within_it_is_looked_at_first(x:E){match x{E::A(a)|E::B(256)=>1,_=>2}}
