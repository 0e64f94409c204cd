fn backwards(x:u8){match x{5..=4=>1,_=>2}}
fn one_number(x:u8){match x{5..=5=>1,_=>2}}
fn exclusive_of_one_number(x:u8){match x{5..6=>1,_=>2}}
fn exclusive_of_none(x:u8){match x{5..5=>1,_=>2}}
fn exclusive_backwards(x:u8){match x{6..5=>1,_=>2}}
fn to_the_least_u8(x:u8){match x{..0=>1,_=>2}}
fn to_and_with_the_least_u8(x:u8){match x{..=0=>1,_=>2}}
fn to_minus_zero(x:u8){match x{..-0=>1,_=>2}}
fn to_the_number_behind_the_least_u8(x:u8){match x{..1=>1,_=>2}}
fn to_the_least_i8(x:i8){match x{..-128=>1,_=>2}}
fn to_and_with_the_least_i8(x:i8){match x{..=-128=>1,_=>2}}
fn to_zero_on_i8(x:i8){match x{..0=>1,0.. =>2}}
fn to_the_least_i128(x:i128){match x{..-170141183460469231731687303715884105728=>1,_=>2}}
fn to_the_least_usize(x:usize){match x{..0=>1,_=>2}}
fn to_the_least_literal_of_isize(x:isize){match x{..-9223372036854775808=>1,_=>2}}
fn from_the_greatest_u8(x:u8){match x{255.. =>1,_=>2}}
fn negative_backwards(x:i8){match x{-1..=-2=>1,_=>2}}
fn negative_forwards(x:i8){match x{-2..=-1=>1,_=>2}}
fn over_zero_backwards(x:i8){match x{1..=-1=>1,_=>2}}
fn characters_backwards(x:char){match x{'z'..='a'=>1,_=>2}}
fn one_character(x:char){match x{'a'..='a'=>1,_=>2}}
fn exclusive_of_no_character(x:char){match x{'a'..'a'=>1,_=>2}}
fn to_the_least_character(x:char){match x{..'\0'=>1,_=>2}}
fn to_and_with_the_least_character(x:char){match x{..='\0'=>1,_=>2}}
fn bytes_backwards(x:u8){match x{b'z'..=b'a'=>1,_=>2}}
fn a_byte_and_a_number_backwards(x:u8){match x{b'a'..=96=>1,_=>2}}
fn a_byte_and_its_number(x:u8){match x{b'a'..=97=>1,_=>2}}
fn exclusive_over_the_hole(x:char){match x{'\u{d7ff}'..'\u{e000}'=>1,'\u{d7ff}'=>2,_=>3}}
fn exclusive_up_to_the_hole(x:char){match x{..'\u{e000}'=>1,'\u{e000}'.. =>2}}
fn over_the_hole(x:char){match x{..='\u{d7ff}'=>1,'\u{e000}'..='\u{10ffff}'=>2}}
fn around_the_hole(x:char){match x{'\u{d7ff}'..='\u{e000}'=>1,..'\u{d7ff}'|'\u{e001}'.. =>2}}
fn over_the_hole_backwards(x:char){match x{'\u{e000}'..='\u{d7ff}'=>1,_=>2}}
fn exclusive_behind_the_hole(x:char){match x{'\u{e000}'..'\u{e000}'=>1,_=>2}}
fn through_references(x:&&u8){match x{5..=4=>1,_=>2}}
fn in_round_brackets(x:u8){match x{(5..=4)=>1,_=>2}}
fn behind_an_at(x:u8){match x{n@5..=4=>1,_=>2}}
fn in_an_alternative(x:u8){match x{1..=2|5..=4=>1,_=>2}}
fn behind_a_reference(x:&u8){match x{&(9..9)=>1,_=>2}}
fn in_the_third_arm(x:u8){match x{0..=9=>1,10..=19=>2,20..20=>3,_=>4}}
