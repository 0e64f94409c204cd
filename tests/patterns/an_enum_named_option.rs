enum Option{Some(u8),Nothing}
enum Result{}
use Option::*;
fn its_own_variants_are_meant(x:Option){match x{Option::Some(_)=>1,Option::Nothing=>2}}
fn by_a_glob_too(x:Option){match x{Some(_)=>1,Nothing=>2}}
fn the_built_in_variant_is_not_found_behind_its_name(x:Option){match x{Option::None=>1,_=>2}}
fn the_built_in_variant_alone_is_found(x:Option){match x{None=>1,_=>2}}
fn an_enum_without_variants_has_none(x:Result){match x{Result::Ok(_)=>1}}
