enum E{S,T(u8),V,W}
enum F{V{a:u8},W,X}
struct S{a:u8}
struct T;
struct Some{a:u8}
struct None{a:u8}
use E::*;
use F::{V};
fn brace_struct_hides_a_variant_and_binds(x:E){match x{S=>1}}
fn brace_struct_is_not_that_variant(x:E){match x{S{..}=>1,_=>2}}
fn unit_struct_hides_a_variant(x:E){match x{T(_)=>1,_=>2}}
fn unit_struct_is_found(x:T){match x{T=>1}}
fn listed_variant_hides_one_by_a_glob_and_binds(x:E){match x{V=>1}}
fn listed_variant_is_found(x:F){match x{V{a:_}=>1,F::W|F::X=>2}}
fn variant_by_a_glob_is_found(x:E){match x{W=>1,_=>2}}
fn variant_of_another_enum_is_not_imported(x:F){match x{W=>1,_=>2}}
fn brace_struct_hides_a_built_in_variant_and_binds(x:Option<u8>){match x{None=>1}}
fn brace_struct_hides_a_built_in_variant(x:Option<u8>){match x{Some(_)=>1,_=>2}}
fn brace_struct_with_brackets(x:None){match x{None{a:0}=>1,None{..}=>2}}
fn by_its_enum_it_is_found(x:Option<u8>){match x{Option::Some(_)=>1,Option::None=>2}}
