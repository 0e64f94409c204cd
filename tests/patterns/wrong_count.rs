enum E{A,B(u8,u8),C{c:u8},D()}
struct U;
struct P(u8,u8,u8);
struct R{r:u8}
struct N();
fn tuple_one_too_few(x:(u8,u8)){match x{(_,)=>1}}
fn tuple_one_too_many(x:(u8,u8)){match x{(_,_,_)=>1}}
fn tuple_as_many(x:(u8,u8)){match x{(_,_)=>1}}
fn tuple_with_a_last_comma(x:(u8,u8)){match x{(_,_,)=>1}}
fn tuple_without_parts_on_one_of_two(x:(u8,u8)){match x{()=>1}}
fn tuple_of_one_on_one_of_none(x:()){match x{(_,)=>1}}
fn tuple_with_a_rest_and_too_many(x:(u8,u8)){match x{(_,..,_,_)=>1}}
fn tuple_with_a_rest_of_nothing(x:(u8,u8)){match x{(_,..,_)=>1}}
fn tuple_with_a_rest_of_all(x:(u8,u8)){match x{(..)=>1}}
fn tuple_with_a_rest_at_the_start(x:(u8,bool)){match x{(..,true)=>1,(..,false)=>2}}
fn tuple_with_a_rest_at_the_end(x:(bool,u8)){match x{(true,..)=>1,(false,..)=>2}}
fn unit_tuple_with_a_rest(x:()){match x{(..)=>1}}
fn unit_tuple_with_a_rest_and_a_part(x:()){match x{(..,_)=>1}}
fn tuple_struct_one_too_few(x:P){match x{P(_,_)=>1}}
fn tuple_struct_one_too_many(x:P){match x{P(_,_,_,_)=>1}}
fn tuple_struct_as_many(x:P){match x{P(_,_,_)=>1}}
fn tuple_struct_with_a_rest(x:P){match x{P(_,..,_)=>1}}
fn tuple_struct_with_a_rest_and_too_many(x:P){match x{P(_,_,..,_,_)=>1}}
fn tuple_struct_without_parts(x:N){match x{N()=>1}}
fn tuple_struct_without_parts_with_a_rest(x:N){match x{N(..)=>1}}
fn tuple_struct_without_parts_with_a_part(x:N){match x{N(_)=>1}}
fn tuple_variant_one_too_few(x:E){match x{E::B(_)=>1,_=>2}}
fn tuple_variant_one_too_many(x:E){match x{E::B(_,_,_)=>1,_=>2}}
fn some_with_two_parts(x:Option<u8>){match x{Some(_,_)=>1,_=>2}}
fn some_with_no_part(x:Option<u8>){match x{Some()=>1,_=>2}}
fn some_with_a_tuple(x:Option<(u8,u8)>){match x{Some((_,_))=>1,None=>2}}
fn path_names_a_tuple_variant(x:E){match x{E::B=>1,_=>2}}
fn path_names_a_tuple_variant_without_parts(x:E){match x{E::D=>1,_=>2}}
fn path_names_a_brace_variant(x:E){match x{E::C=>1,_=>2}}
fn path_names_a_built_in_tuple_variant(x:Option<u8>){match x{Option::Some=>1,_=>2}}
fn path_names_a_unit_variant(x:E){match x{E::A=>1,_=>2}}
fn round_brackets_on_a_unit_variant(x:E){match x{E::A()=>1,_=>2}}
fn round_brackets_with_a_rest_on_a_unit_variant(x:E){match x{E::A(..)=>1,_=>2}}
fn round_brackets_on_a_unit_struct(x:U){match x{U()=>1}}
fn round_brackets_on_a_brace_struct(x:R){match x{R(_)=>1}}
fn round_brackets_on_a_brace_variant(x:E){match x{E::C(_)=>1,_=>2}}
fn round_brackets_on_none(x:Option<u8>){match x{None()=>1,_=>2}}
fn array_one_too_few(x:[u8;3]){match x{[_,_]=>1,_=>2}}
fn array_one_too_many(x:[u8;3]){match x{[_,_,_,_]=>1,_=>2}}
fn array_as_many(x:[u8;3]){match x{[_,_,_]=>1}}
fn array_with_a_rest_of_nothing(x:[u8;2]){match x{[_,..,_]=>1}}
fn array_with_a_rest_and_too_many(x:[u8;2]){match x{[_,..,_,_]=>1,_=>2}}
fn array_with_a_bound_rest_and_too_many(x:[u8;1]){match x{[_,t@..,_]=>1,_=>2}}
fn array_with_a_bound_rest(x:[u8;2]){match x{[_,t@..,_]=>1}}
fn array_of_no_items(x:[u8;0]){match x{[]=>1}}
fn array_of_no_items_with_a_rest(x:[u8;0]){match x{[..]=>1}}
fn array_of_no_items_with_an_item(x:[u8;0]){match x{[_]=>1,_=>2}}
fn array_of_many_items(x:[u8;4294967295]){match x{[_,..,_]=>1}}
fn array_of_many_items_without_a_rest(x:[u8;4294967295]){match x{[_,_]=>1,_=>2}}
fn slice_has_any_count(x:&[u8]){match x{[_,_,_]=>1,[..]=>2}}
fn array_through_references(x:&&[u8;2]){match x{[_]=>1,_=>2}}
fn in_an_alternative_in_the_second_arm(x:(u8,u8)){match x{(0,_)=>1,(1,_)|(2,_,_)=>2,_=>3}}
fn behind_an_at(x:(u8,u8)){match x{t@(_,)=>1}}
