enum E{A,B(u8),C{c:u8},D}
enum F{A,B(u8),C{c:u8},G{g:u8},H(u8)}
use E::*;
use F::*;
use E::*;
struct S{A:u8,k:u8}
fn unit_variant_twice(x:E){match x{A=>1,_=>2}}
fn tuple_variant_twice(x:E){match x{B(_)=>1,_=>2}}
fn brace_variant_twice(x:F){match x{C{..}=>1,_=>2}}
fn brace_variant_twice_without_brackets(x:F){match x{C=>1}}
fn twice_with_ref(x:E){match x{ref A=>1}}
fn twice_with_mut(x:E){match x{mut B=>1}}
fn twice_with_at(x:E){match x{A@_=>1}}
fn twice_by_two_globs_of_one_enum_is_once(x:E){match x{D=>1,_=>2}}
fn by_its_enum_it_is_found(x:E){match x{E::A=>1,E::B(_)=>2,E::C{..}=>3,E::D=>4}}
fn brace_variant_by_a_glob_binds(x:F){match x{G=>1}}
fn brace_variant_by_a_glob_with_brackets(x:F){match x{G{g:_}=>1,_=>2}}
fn tuple_variant_by_a_glob(x:F){match x{H(_)=>1,_=>2}}
fn short_field_is_not_looked_up(x:S){match x{S{A,k:_}=>1}}
fn short_field_with_ref_is_not_looked_up(x:S){match x{S{ref A,..}=>1}}
fn field_that_is_written_out_is_looked_up(x:S){match x{S{A:ref A,..}=>1}}
fn field_that_is_written_out_alone_is_looked_up(x:S){match x{S{k:A,..}=>1}}
fn bound_rest_is_looked_up(x:&[E]){match x{[A@..]=>1}}
