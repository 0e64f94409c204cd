fn the_later_range_is_the_lower_one(x:u8){match x{9..=20=>1,0..=9=>2,_=>3}}
fn below_zero(x:i8){match x{-128..=-5=>1,-5..=-1=>2,-1..=127=>3}}
fn open_ends(x:i16){match x{..=-7=>1,-7.. =>2}}
fn open_ends_that_leave_the_number_out(x:i16){match x{..-7=>1,-7.. =>2}}
fn an_end_that_is_not_in_it(x:u8){match x{0..11=>1,10..=20=>2,_=>3}}
fn ends_one_apart(x:u8){match x{0..=9=>1,10..=20=>2,_=>3}}
fn two_numbers_in_both(x:u8){match x{0..=10=>1,9..=20=>2,_=>3}}
fn one_within_the_other(x:u8){match x{0..=20=>1,5..=9=>2,_=>3}}
fn the_same_first_number(x:u8){match x{5..=9=>1,5..=20=>2,_=>3}}
fn the_same_range_twice(x:u8){match x{5..=9=>1,5..=9 if g()=>2,_=>3}}
fn a_literal_is_no_range(x:u8){match x{9=>1,9..=20=>2,0..=9=>3,_=>4}}
fn a_range_of_one_number_is_none(x:u8){match x{0..=9=>1,9..=9=>2,9..10=>3,9..=20=>4,_=>5}}
fn the_last_number_alone(x:u8){match x{255.. =>1,..=255=>2}}
fn the_first_number_alone(x:u8){match x{..=0=>1,..1=>2,0..=255=>3}}
fn a_range_of_two_numbers(x:u8){match x{0..=1=>1,1..=2=>2,2..4=>3,_=>4}}
fn one_with_many(x:u8){match x{0..=5=>1,5..=9=>2,5..=7=>3,3..=5=>4,_=>5}}
fn at_both_of_its_ends(x:u8){match x{5..=9=>1,0..=5=>2,9..=20=>3,_=>4}}
fn the_greatest_numbers(x:u128){match x{0..=340282366920938463463374607431768211454=>1,340282366920938463463374607431768211454.. =>2}}
fn the_least_numbers(x:i128){match x{..=-170141183460469231731687303715884105727=>1,-170141183460469231731687303715884105727..=0=>2,0.. =>3}}
fn other_ways_to_write_a_number(x:u8){match x{0..=0x64=>1,0b110_0100..=b'z'=>2,122u8.. =>3}}
