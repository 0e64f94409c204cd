enum E{A,B(bool),C{c:u8}}
#[non_exhaustive]enum M{A,B}
enum Z{}
struct R{r#fn:bool,s:u8}
fn missing_variant(x:E){match x{E::A=>1,E::B(_)=>2}}
fn missing_within_a_variant(x:E){match x{E::A|E::C{..}=>1,E::B(true)=>2}}
fn missing_numbers_on_both_sides(x:u8){match x{100..=200=>1}}
fn missing_numbers_of_isize(x:isize){match x{-9223372036854775808..=9223372036854775807=>1}}
fn missing_numbers_of_isize_in_the_middle(x:isize){match x{..0=>1,1.. =>2}}
fn missing_below_a_literal_of_isize(x:isize){match x{5.. =>1}}
fn missing_above_a_literal_of_usize(x:usize){match x{..=5=>1}}
fn missing_characters(x:char){match x{'b'..='\u{d7ff}'=>1,'\u{e001}'.. =>2}}
fn missing_quote_and_backslash(x:char){match x{..'\''|'('..'\\'|']'.. =>1}}
fn missing_texts(x:&str){match x{"b"=>1,"a"=>2}}
fn missing_text_beside_another(x:(&str,bool)){match x{("a",true)=>1,("b",_)=>2}}
fn missing_lengths(x:&[bool]){match x{[_]=>1,[true,..,_]=>2}}
fn missing_items_of_an_array(x:[bool;2]){match x{[true,..]=>1,[..,true]=>2}}
fn missing_ends_of_an_array(x:[bool;9]){match x{[true,..]=>1,[..,true]=>2}}
fn missing_later_variants(x:M){match x{M::A=>1,M::B=>2}}
fn missing_later_variants_only(x:M){match x{M::A|M::B=>1,_=>2}}
fn missing_in_a_raw_field(x:R){match x{R{r#fn:true,..}=>1}}
fn missing_everything(x:E){match x{}}
fn missing_nothing_of_nothing(x:Z){match x{}}
fn missing_nothing_behind_a_star(x:&Z){match *x{}}
fn missing_behind_a_reference(x:&Z){match x{}}
fn missing_behind_a_mutable_reference(x:&mut bool){match x{true=>1}}
fn missing_in_a_one_tuple(x:(bool,)){match x{(true,)=>1}}
fn missing_where_guards_stand(x:bool){match x{true if g()=>1,false=>2}}
fn missing_in_an_option(x:Option<Option<bool>>){match x{Some(Some(true))=>1}}
fn arm_behind_a_wildcard(x:u8){match x{_=>1,1=>2}}
fn arm_behind_all_of_its_numbers(x:u8){match x{0..=9=>1,5..=15=>2,3..=12=>3,_=>4}}
fn arm_behind_a_guarded_one(x:u8){match x{_ if g()=>1,1=>2,_=>3}}
fn arm_of_a_variant_without_values(x:Result<u8,!>){match x{Ok(_)=>1,Err(_)=>2}}
fn arm_of_a_variant_without_values_behind_a_reference(x:&Result<u8,!>){match x{Ok(_)=>1,Err(_)=>2}}
fn arm_on_what_has_no_value(x:Z){match x{_=>1}}
fn arm_on_what_is_unseen(x:&Z){match *x{_=>1,_=>2}}
fn alternative_behind_its_like(x:u8){match x{0|1|0=>1,_=>2}}
fn alternative_behind_its_like_with_a_guard(x:u8){match x{0|1|0 if g()=>1,_=>2}}
fn alternative_that_an_earlier_arm_takes(x:u8){match x{0=>1,0|1 if g()=>2,_=>3}}
fn group_of_alternatives_is_listed_whole(x:u8){match x{(0|1)|(1|0)=>1,_=>2}}
fn part_of_a_group_is_listed_alone(x:u8){match x{(0|1)|(2|0)=>1,_=>2}}
fn alternative_in_a_field(x:Option<u8>){match x{Some(1|2|1)=>1,_=>2}}
fn alternatives_of_two_fields(x:(bool,bool)){match x{(true|true,false|false)=>1,_=>2}}
fn no_way_of_an_alternative_comes_first(x:(bool,bool)){match x{(true,_)|(_,true)|(true,true)=>1,_=>2}}
fn whole_arm_and_not_its_parts(x:u8){match x{0|1=>1,0|1|0=>2,_=>3}}
fn arm_in_round_brackets(x:u8){match x{_=>1,(1|2)=>2}}
fn arm_with_a_leading_mark(x:u8){match x{_=>1,|1=>2}}
fn ranges_that_meet(x:u8){match x{0..=100=>1,100..=255=>2}}
fn numbers_that_no_literal_names(x:usize){match x{0..=18446744073709551615=>1,18446744073709551615.. =>2}}
fn an_array_without_items_has_one_value(x:[!;0]){match x{[]=>1}}
fn an_array_of_what_is_empty_has_none(x:[!;3]){match x{}}
fn a_slice_of_what_is_empty_behind_a_reference(x:&[!]){match x{[]=>1,[_,..]=>2}}
