enum E{A(u8,u8),B(u8),C{c:u8,d:u8}}
struct S{a:u8,b:u8}
fn in_a_tuple(x:(u8,u8)){match x{(a,a)=>1}}
fn in_a_tuple_two_names(x:(u8,u8)){match x{(a,b)=>1}}
fn in_a_tuple_variant(x:E){match x{E::A(a,a)=>1,_=>2}}
fn deep_and_flat(x:(Option<u8>,u8)){match x{(Some(a),a)=>1,_=>2}}
fn at_and_inside(x:Option<u8>){match x{a@Some(a)=>1,_=>2}}
fn at_and_at(x:u8){match x{a@a@1=>1,_=>2}}
fn at_and_another_at(x:u8){match x{a@b@1=>1,_=>2}}
fn in_a_slice(x:&[u8]){match x{[a,..,a]=>1,_=>2}}
fn with_a_bound_rest(x:&[u8]){match x{[a,a@..]=>1,_=>2}}
fn behind_a_bound_rest(x:&[u8]){match x{[a@..,a]=>1,_=>2}}
fn short_fields(x:S){match x{S{a,b}=>1}}
fn short_field_and_one_that_is_written_out(x:S){match x{S{a,b:a}=>1}}
fn one_that_is_written_out_and_a_short_field(x:S){match x{S{a:b,b}=>1}}
fn the_first_that_is_written_counts(x:S){match x{S{b:a,a:a}=>1}}
fn raw_and_plain(x:(u8,u8)){match x{(a,r#a)=>1}}
fn composed_and_not(x:(u8,u8)){match x{(é,é)=>1}}
fn with_other_modes(x:(u8,u8)){match x{(ref a,mut a)=>1}}
fn with_other_types(x:(u8,bool)){match x{(a,a)=>1}}
fn in_two_arms(x:(u8,u8)){match x{(a,0)=>1,(_,a)=>2}}
fn in_two_alternatives(x:(u8,u8)){match x{(a,0)|(0,a)=>1,_=>2}}
fn in_two_alternatives_of_a_field(x:Option<(u8,u8)>){match x{Some((a,0)|(0,a))=>1,_=>2}}
fn twice_in_one_alternative(x:(u8,u8)){match x{(0,0)|(a,a)=>1,_=>2}}
fn within_and_beside_alternatives(x:(u8,u8)){match x{(a|a,a)=>1}}
fn beside_and_within_alternatives(x:(u8,u8)){match x{(a,a|_)=>1}}
fn beside_and_within_the_second_alternative(x:(u8,u8)){match x{(a,_|a)=>1}}
fn at_and_within_alternatives(x:Option<u8>){match x{a@(Some(_)|None)=>1}}
fn at_and_bound_within_alternatives(x:Option<u8>){match x{a@(Some(a)|None)=>1}}
fn two_or_patterns_beside_each_other(x:(u8,u8)){match x{(a|a,b|b)=>1}}
fn the_same_name_in_two_or_patterns(x:(u8,u8)){match x{(a@0|a,a|a)=>1}}
fn alternatives_in_alternatives(x:u8){match x{(a@0|a@1)|(a@2|a)=>1}}
fn alternatives_in_alternatives_twice(x:(u8,u8)){match x{((a,0)|(0,a))|(a,a)=>1,_=>2}}
fn a_name_that_finds_a_variant_binds_nothing(x:(Option<u8>,Option<u8>)){match x{(None,None)=>1,_=>2}}
fn wildcards_bind_nothing(x:(u8,u8)){match x{(_,_)=>1}}
fn names_that_differ_by_case(x:(u8,u8)){match x{(a,A)=>1}}
fn through_a_reference(x:&(u8,u8)){match x{(a,a)=>1}}
fn three_times_the_second_counts(x:(u8,u8,u8)){match x{(a,a,a)=>1}}
