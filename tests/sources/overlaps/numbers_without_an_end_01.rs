fn the_greatest_literal_of_usize(x:usize){match x{0..=18446744073709551615=>1,18446744073709551615.. =>2}}
fn two_free_ends_of_usize(x:usize){match x{5.. =>1,9.. =>2,_=>3}}
fn the_first_numbers_of_usize(x:usize){match x{..=7=>1,7.. =>2}}
fn zero_of_usize(x:usize){match x{..=0=>1,0.. =>2}}
fn both_free_ends_of_isize(x:isize){match x{..=-3=>1,-3.. =>2}}
fn the_least_literal_of_isize(x:isize){match x{..=-9223372036854775808=>1,-9223372036854775808..=9223372036854775807=>2,9223372036854775807.. =>3}}
fn below_the_least_literal_of_isize(x:isize){match x{..-9223372036854775808=>1,..=-9223372036854775808=>2,_=>3}}
