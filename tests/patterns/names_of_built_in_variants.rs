enum O{Some(u8),None,Other}
use O::*;
use Option::*;
enum Q{Ok,Err}
use Q::*;
fn by_two_globs_it_is_twice(x:Option<u8>){match x{Some(_)=>1,_=>2}}
fn by_two_globs_the_unit_one_is_twice(x:Option<u8>){match x{None=>1,_=>2}}
fn by_its_enum_it_is_the_built_in_one(x:Option<u8>){match x{Option::Some(_)=>1,Option::None=>2}}
fn by_the_other_enum_it_is_that(x:O){match x{O::Some(_)|O::None=>1,Other=>2}}
fn by_one_glob_it_hides_the_built_in_one(x:Q){match x{Ok=>1,Err=>2}}
fn and_has_not_the_type_of_the_built_in_one(x:Result<u8,u8>){match x{Ok=>1,_=>2}}
fn and_has_not_its_form(x:Q){match x{Ok(_)=>1,_=>2}}
fn the_built_in_one_has_its_enum_still(x:Result<u8,u8>){match x{Result::Ok(_)=>1,Result::Err(_)=>2}}
