enum E{A,B(u8),C{c:u8,d:u8}}
struct P(u8,u8);
struct S{P:u8,k:u8}
fn the_least_rule_at_a_node(x:u8){match x{P(_)=>1,_=>2}}
fn count_and_what_is_inside(x:P){match x{P(300)=>1}}
fn outside_before_inside(x:u8){match x{(256,'a')=>1,_=>2}}
fn inside_where_the_outside_is_fine(x:(u8,char)){match x{(256,0)=>1,_=>2}}
fn the_first_part_before_the_second(x:(u8,char)){match x{(0,0)=>1,_=>2}}
fn fields_as_they_are_written(x:E){match x{E::C{d:256,c:'a'}=>1,_=>2}}
fn a_greater_rule_that_comes_first(x:(f64,u8)){match x{(1.5,'a')=>1,_=>2}}
fn arms_in_order(x:u8){match x{1.5=>1,'a'=>2,_=>3}}
fn second_arm_where_the_first_is_fine(x:u8){match x{1=>1,'a'=>2,256=>3,_=>4}}
fn guarded_arms_count(x:u8){match x{'a' if g()=>1,_=>2}}
fn arms_that_no_value_meets_count(x:u8){match x{_=>1,256=>2}}
fn arms_without_a_value_count(x:!){match x{(_,)=>1}}
fn alternatives_in_order(x:u8){match x{1|256|'a'=>1,_=>2}}
fn name_before_what_is_behind_its_at(x:(u8,u8)){match x{(a,a@'a')=>1,_=>2}}
fn what_is_behind_an_at_before_the_next_part(x:(u8,u8)){match x{(a@'a',a)=>1,_=>2}}
fn bound_twice_and_written_mode(x:&(u8,u8)){match x{(a,ref a)=>1}}
fn no_binding_and_bound_twice(x:S){match x{S{P,k:ref P}=>1}}
fn no_binding_and_bound_twice_and_written_mode(x:&S){match x{S{P,k:mut P}=>1}}
fn no_binding_and_written_mode(x:&(Option<u8>,u8)){match x{(ref None,_)=>1}}
fn wrong_reference_under_a_mode(x:&(u8,)){match x{(&_,)=>1}}
fn reference_under_a_mode_before_what_is_inside(x:&(&u8,)){match x{(&'a',)=>1,_=>2}}
fn form_before_its_fields(x:E){match x{E::C{c:'a',e:_}=>1,_=>2}}
fn slice_before_its_items(x:[u8;1]){match x{['a','b']=>1,_=>2}}
fn bound_rest_before_later_items(x:&[u8]){match x{[None@..,'a']=>1,_=>2}}
fn items_before_a_bound_rest(x:&[u8]){match x{['a',None@..]=>1,_=>2}}
fn differing_alternatives_come_last_of_all(x:E){match x{E::A|E::B(a)=>1,E::B(1)|E::B(-1)=>2,_=>3}}
fn unknown_in_a_round_bracket(x:E){match x{(E::A|(E::B(_)|E::D))=>1,_=>2}}
fn a_fault_in_one_function_leaves_the_next(x:bool){match x{true=>1,2=>3}}
fn that_is_judged(x:bool){match x{true=>1,false=>2}}
fn place_behind_other_bytes(x:(char,u8)){match x{('é',0)=>1,('\u{10ffff}',/* 𝄞 */256)=>2,_=>3}}
