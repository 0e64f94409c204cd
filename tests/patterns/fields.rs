enum E{A,B(u8,u8),C{c:u8,d:bool}}
struct U;
struct P(u8,bool);
struct R{r:u8,s:bool,fn_:u8}
struct K{r#type:u8,r#in:bool}
struct N{}
fn all_fields(x:R){match x{R{r:_,s:_,fn_:_}=>1}}
fn all_fields_in_another_order(x:R){match x{R{fn_:_,s:true,r:_}=>1,R{s:false,fn_:_,r:_}=>2}}
fn some_fields_and_the_rest(x:R){match x{R{s:true,..}=>1,R{s:false,..}=>2}}
fn no_field_and_the_rest(x:R){match x{R{..}=>1}}
fn all_fields_and_the_rest(x:R){match x{R{r:_,s:_,fn_:_,..}=>1}}
fn unknown_field(x:R){match x{R{t:_,..}=>1}}
fn unknown_field_that_is_short(x:R){match x{R{t,..}=>1}}
fn unknown_field_of_another_case(x:R){match x{R{R:_,..}=>1}}
fn unknown_field_behind_all_others(x:R){match x{R{r:_,s:_,fn_:_,t:_}=>1}}
fn field_of_another_variant(x:E){match x{E::C{r:_,..}=>1,_=>2}}
fn a_number_is_no_field_of_a_brace_struct(x:R){match x{R{0:_,..}=>1}}
fn numbers_are_fields_of_a_tuple_struct(x:P){match x{P{0:_,1:_}=>1}}
fn numbers_are_fields_of_a_tuple_variant(x:E){match x{E::B{1:0,..}=>1,_=>2}}
fn number_one_too_great(x:P){match x{P{2:_,..}=>1}}
fn a_name_is_no_field_of_a_tuple_struct(x:P){match x{P{r:_,..}=>1}}
fn the_field_of_some(x:Option<u8>){match x{Some{0:_}=>1,None{}=>2}}
fn the_field_of_some_has_no_other_number(x:Option<u8>){match x{Some{1:_,..}=>1,_=>2}}
fn unit_struct_in_curly_brackets(x:U){match x{U{}=>1}}
fn unit_struct_with_the_rest(x:U){match x{U{..}=>1}}
fn unit_struct_has_no_field(x:U){match x{U{0:_}=>1}}
fn unit_variant_in_curly_brackets(x:E){match x{E::A{}=>1,_=>2}}
fn brace_struct_without_fields(x:N){match x{N{}=>1}}
fn raw_fields(x:K){match x{K{r#type:_,r#in:_}=>1}}
fn raw_fields_that_are_short(x:K){match x{K{r#type,r#in}=>1}}
fn field_twice(x:R){match x{R{r:_,r:_,..}=>1}}
fn field_twice_once_short(x:R){match x{R{r:_,r,..}=>1}}
fn field_twice_raw_and_plain(x:R){match x{R{r:_,r#r:_,..}=>1}}
fn field_twice_with_all_others(x:R){match x{R{r:_,s:_,fn_:_,s:_}=>1}}
fn number_twice(x:P){match x{P{0:_,1:_,0:_}=>1}}
fn unknown_field_twice(x:R){match x{R{t:_,t:_,..}=>1}}
fn field_missing(x:R){match x{R{r:_,s:_}=>1}}
fn all_fields_missing(x:R){match x{R{}=>1}}
fn number_missing(x:P){match x{P{1:_}=>1}}
fn field_of_a_tuple_variant_missing(x:E){match x{E::B{}=>1,_=>2}}
fn field_of_some_missing(x:Option<u8>){match x{Some{}=>1,_=>2}}
fn field_of_a_brace_variant_missing(x:E){match x{E::C{c:_}=>1,_=>2}}
fn twice_and_missing(x:R){match x{R{r:_,r:_}=>1}}
fn unknown_and_missing(x:R){match x{R{t:_}=>1}}
fn raw_field_missing(x:K){match x{K{r#type:_}=>1}}
fn through_references(x:&&R){match x{R{s:true,..}=>1,R{s:false}=>2}}
fn within_a_field(x:Option<R>){match x{Some(R{r:_})=>1,None=>2}}
fn in_the_second_alternative(x:R){match x{R{..}|R{q:_,..}=>1}}
fn attributes_do_not_matter(x:R){match x{R{#[a]r:_,#[b(c)]s,..}=>1}}
fn the_place_is_that_of_the_path(x:E){match x{E::A=>1,E::B{0:_,..}=>2,E::C{e:_,..}=>3}}
