enum E{A,B(u8,u8)}
struct P(u8,u8,u8);
struct U;
fn in_a_tuple(x:(u8,u8)){match x{(..,..)=>1}}
fn in_a_tuple_with_a_part_between(x:(u8,u8)){match x{(..,_,..)=>1}}
fn in_a_tuple_struct(x:P){match x{P(..,_,..)=>1}}
fn in_a_tuple_variant(x:E){match x{E::B(..,..)=>1,_=>2}}
fn in_a_slice(x:&[u8]){match x{[..,..]=>1,_=>2}}
fn in_a_slice_with_an_item_between(x:&[u8]){match x{[..,0,..]=>1,_=>2}}
fn in_an_array(x:[u8;3]){match x{[..,_,..]=>1}}
fn a_bound_rest_and_another(x:&[u8]){match x{[a@..,..]=>1,_=>2}}
fn two_bound_rests(x:&[u8]){match x{[a@..,b@..]=>1,_=>2}}
fn three_rests(x:&[u8]){match x{[..,..,..]=>1,_=>2}}
fn two_rests_leave_the_count_aside_in_a_tuple(x:(u8,u8)){match x{(_,..,_,..,_)=>1}}
fn two_rests_leave_the_count_aside_in_an_array(x:[u8;1]){match x{[_,..,_,..,_]=>1}}
fn two_rests_leave_the_form_aside(x:E){match x{E::A(..,..)=>1,_=>2}}
fn two_rests_leave_the_form_of_a_unit_struct_aside(x:U){match x{U(..,..)=>1}}
fn two_rests_on_another_type(x:u8){match x{(..,..)=>1}}
fn two_rests_in_a_slice_on_another_type(x:u8){match x{[..,..]=>1}}
fn two_rests_behind_an_unknown_name(x:u8){match x{Q(..,..)=>1}}
fn two_rests_behind_a_long_path(x:u8){match x{a::b::Q(..,..)=>1}}
fn two_rests_behind_self(x:u8){match x{Self(..,..)=>1}}
fn one_rest_in_each_list(x:((u8,u8),u8)){match x{((..),..)=>1}}
fn one_rest_in_each_item(x:&[&[u8]]){match x{[[..],..]=>1,[]=>2}}
fn one_rest_in_each_alternative(x:&[u8]){match x{[0,..]|[..,0]=>1,_=>2}}
fn a_range_from_below_is_no_rest(x:&[u8]){match x{[..,..=9]=>1,_=>2}}
fn a_rest_takes_a_number_behind_it(x:&[u8]){match x{[..0]=>1,_=>2}}
fn in_a_field(x:Option<(u8,u8)>){match x{Some((..,..))=>1,None=>2}}
fn in_the_second_arm(x:&[u8]){match x{[..,0]=>1,[..,1,..]=>2,_=>3}}
