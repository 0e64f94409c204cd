enum E{A,B(u8),C{c:u8},D()}
struct U;
struct P(u8);
struct N();
struct R{r:u8,P:u8}
use E::{A,B,C};
fn tuple_struct_alone(x:P){match x{P=>1}}
fn tuple_struct_without_parts_alone(x:N){match x{N=>1}}
fn tuple_variant_alone(x:E){match x{B=>1}}
fn built_in_tuple_variant_alone(x:Option<u8>){match x{Some=>1,_=>2}}
fn built_in_tuple_variant_alone_on_another_type(x:u8){match x{Ok=>1,_=>2}}
fn unit_struct_with_ref(x:U){match x{ref U=>1}}
fn unit_struct_with_mut(x:U){match x{mut U=>1}}
fn unit_struct_with_ref_mut(x:U){match x{ref mut U=>1}}
fn unit_struct_with_at(x:U){match x{U@_=>1}}
fn unit_variant_with_ref(x:E){match x{ref A=>1}}
fn unit_variant_with_at(x:E){match x{A@E::A=>1,_=>2}}
fn built_in_unit_variant_with_mut(x:Option<u8>){match x{mut None=>1}}
fn tuple_struct_with_ref(x:P){match x{ref P=>1}}
fn tuple_struct_with_at(x:P){match x{P@_=>1}}
fn tuple_variant_with_mut(x:E){match x{mut B=>1}}
fn brace_struct_alone_binds(x:u8){match x{R=>1}}
fn brace_struct_with_ref_binds(x:u8){match x{ref R=>1}}
fn brace_variant_alone_binds(x:E){match x{C=>1}}
fn brace_variant_with_at_binds(x:E){match x{C@_=>1}}
fn variant_that_is_not_imported_binds(x:E){match x{mut D=>1}}
fn short_field_binds(x:R){match x{R{r:_,P}=>1}}
fn short_field_with_mut_binds(x:R){match x{R{r:_,mut P}=>1}}
fn field_that_is_written_out_does_not(x:R){match x{R{r:_,P:P}=>1}}
fn field_that_is_written_out_with_ref_does_not(x:R){match x{R{r:_,P:ref P}=>1}}
fn bound_rest_of_a_tuple_struct_s_name(x:&[u8]){match x{[P@..]=>1}}
fn bound_rest_of_a_unit_variant_s_name(x:&[u8]){match x{[_,ref A@..]=>1,_=>2}}
fn bound_rest_of_a_brace_struct_s_name(x:&[u8]){match x{[R@..]=>1}}
fn function_s_name_binds(x:u8){match x{bound_rest_of_a_brace_struct_s_name=>1}}
fn second_of_two_alternatives(x:E){match x{A|B=>1,_=>2}}
fn behind_a_reference(x:&P){match x{&P=>1}}
fn unit_struct_alone_behind_references(x:&&U){match x{U=>1}}
fn unit_variant_alone_behind_a_mutable_reference(x:&mut E){match x{A=>1,_=>2}}
