enum E{A,B(u8),C{c:u8}}
enum F{A,B(u8),C{c:u8}}
struct U;
struct P(u8);
struct Q(u8);
struct R{r:u8}
struct T{r:u8}
fn unit_struct_on_another_struct(x:P){match x{U=>1,_=>2}}
fn unit_struct_on_a_number(x:u8){match x{U=>1,_=>2}}
fn tuple_struct_on_another_struct_of_that_form(x:P){match x{Q(_)=>1}}
fn tuple_struct_on_a_tuple(x:(u8,)){match x{P(_)=>1}}
fn tuple_on_a_tuple_struct(x:P){match x{(_,)=>1}}
fn brace_struct_on_another_struct_of_that_form(x:R){match x{T{..}=>1}}
fn brace_pattern_of_the_struct(x:R){match x{R{r:_}=>1}}
fn unit_variant_of_another_enum(x:E){match x{F::A=>1,_=>2}}
fn tuple_variant_of_another_enum(x:E){match x{F::B(_)=>1,_=>2}}
fn brace_variant_of_another_enum(x:E){match x{F::C{c:_}=>1,_=>2}}
fn variant_on_a_struct(x:P){match x{E::B(_)=>1,_=>2}}
fn struct_on_an_enum(x:E){match x{P(_)=>1,_=>2}}
fn option_on_a_result(x:Result<u8,u8>){match x{Some(_)=>1,_=>2}}
fn result_on_an_option(x:Option<u8>){match x{Err(_)=>1,_=>2}}
fn none_on_a_flag(x:bool){match x{None=>1,_=>2}}
fn some_on_what_is_inside(x:u8){match x{Some(_)=>1,_=>2}}
fn some_of_some(x:Option<Option<u8>>){match x{Some(Some(_))=>1,Some(None)|None=>2}}
fn some_of_some_once_too_often(x:Option<u8>){match x{Some(Some(_))=>1,_=>2}}
fn tuple_on_a_number(x:u8){match x{(_,_)=>1,_=>2}}
fn unit_tuple_on_a_unit_struct(x:U){match x{()=>1,_=>2}}
fn unit_tuple_on_a_unit_tuple(x:()){match x{()=>1}}
fn tuple_on_an_array(x:[u8;2]){match x{(_,_)=>1,_=>2}}
fn tuple_with_a_rest_on_a_number(x:u8){match x{(..)=>1,_=>2}}
fn round_brackets_are_no_tuple(x:u8){match x{(_)=>1}}
fn round_brackets_with_a_comma_are_one(x:u8){match x{(_,)=>1,_=>2}}
fn slice_on_a_tuple(x:(u8,u8)){match x{[_,_]=>1,_=>2}}
fn slice_on_a_number(x:u8){match x{[..]=>1,_=>2}}
fn slice_on_a_text(x:&str){match x{[..]=>1,_=>2}}
fn slice_on_a_vector(x:Vec<u8>){match x{[..]=>1,_=>2}}
fn slice_on_a_boxed_slice(x:Box<[u8]>){match x{[..]=>1,_=>2}}
fn slice_on_an_array(x:[u8;2]){match x{[_,_]=>1}}
fn slice_on_a_slice(x:&[u8]){match x{[..]=>1}}
fn slice_on_a_slice_behind_a_star(x:&[u8]){match *x{[..]=>1}}
fn form_on_a_box(x:Box<E>){match x{E::A=>1,_=>2}}
fn form_on_an_rc(x:Rc<(u8,)>){match x{(_,)=>1,_=>2}}
fn form_on_never(x:!){match x{()=>1}}
fn name_on_a_box_binds(x:Box<E>){match x{b=>1}}
fn box_in_a_form_is_bound(x:Option<Box<E>>){match x{Some(b)=>1,None=>2}}
fn box_in_a_form_is_not_looked_into(x:Option<Box<E>>){match x{Some(E::A)=>1,_=>2}}
fn forms_through_references(x:&&mut&E){match x{E::A=>1,E::B(_)=>2,E::C{..}=>3}}
fn tuple_through_references(x:&&(u8,&u8)){match x{(0..=9,_)=>1,(10..=255,_)=>2}}
fn slice_through_references(x:&&[u8]){match x{[]=>1,[..]=>2}}
fn form_through_a_reference_that_is_in_a_form(x:Option<&E>){match x{Some(E::A)=>1,Some(E::B(_)|E::C{..})|None=>2}}
fn in_a_later_arm(x:E){match x{E::A=>1,E::B(_)=>2,F::C{..}=>3}}
