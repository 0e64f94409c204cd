struct P(u8);
struct R{r:u8}
enum E{A,B(u8)}
fn float(x:f64){match x{1.5=>1,_=>2}}
fn float_with_a_suffix(x:f32){match x{1f32=>1,_=>2}}
fn float_with_an_exponent(x:f64){match x{1e3=>1,_=>2}}
fn negative_float(x:f64){match x{-1.5=>1,_=>2}}
fn float_on_a_number(x:u8){match x{1.5=>1,_=>2}}
fn float_on_never(x:!){match x{1.5=>1}}
fn bytes(x:&[u8]){match x{b"a"=>1,_=>2}}
fn raw_bytes(x:&[u8]){match x{br"a"=>1,_=>2}}
fn bytes_on_a_text(x:&str){match x{b"a"=>1,_=>2}}
fn c_text(x:&str){match x{c"a"=>1,_=>2}}
fn suffix_that_is_no_type(x:u8){match x{1x=>1,_=>2}}
fn suffix_of_a_float_type(x:f64){match x{1f64=>1,_=>2}}
fn suffix_of_a_width_that_is_none(x:u32){match x{1u24=>1,_=>2}}
fn suffix_of_another_case(x:u8){match x{1U8=>1,_=>2}}
fn suffix_that_is_a_keyword(x:u8){match x{1as=>1,_=>2}}
fn suffix_before_wrong_type(x:bool){match x{1x=>1,_=>2}}
fn suffix_before_out_of_range(x:u8){match x{256x=>1,_=>2}}
fn base_in_capitals_is_a_suffix(x:u8){match x{0XFF=>1,_=>2}}
fn path_of_three_names(x:E){match x{a::E::A=>1,_=>2}}
fn path_of_three_names_with_round_brackets(x:E){match x{a::E::B(_)=>1,_=>2}}
fn path_of_three_names_with_curly_brackets(x:R){match x{a::b::R{r:_}=>1}}
fn path_from_the_crate(x:E){match x{crate::E::A=>1,_=>2}}
fn path_from_self(x:E){match x{self::E=>1,_=>2}}
fn path_from_super(x:P){match x{super::P(_)=>1}}
fn capital_self_alone(x:P){match x{Self=>1,_=>2}}
fn capital_self_with_round_brackets(x:P){match x{Self(_)=>1,_=>2}}
fn capital_self_with_curly_brackets(x:R){match x{Self{r:_}=>1,_=>2}}
fn capital_self_and_a_variant(x:E){match x{Self::A=>1,_=>2}}
fn self_alone(x:u8){match x{self=>1}}
fn crate_alone(x:u8){match x{crate=>1}}
fn self_within_a_path(x:E){match x{E::self=>1,_=>2}}
fn long_path_with_two_rests(x:E){match x{a::E::B(..,..)=>1,_=>2}}
fn long_path_with_a_field_twice(x:R){match x{a::b::R{r:_,r:_}=>1}}
fn long_path_with_an_unknown_field(x:R){match x{a::b::R{q:_}=>1}}
fn long_path_with_a_missing_field(x:R){match x{a::b::R{}=>1}}
fn long_path_with_too_many_parts(x:P){match x{a::b::P(_,_,_)=>1}}
fn range_from_a_name(x:u8){match x{A.. =>1,_=>2}}
fn range_to_a_name(x:u8){match x{..=A=>1,_=>2}}
fn range_between_names(x:u8){match x{A..=B=>1,_=>2}}
fn range_to_a_path(x:u8){match x{0..=u8::MAX=>1,_=>2}}
fn range_to_a_name_that_finds_a_variant(x:Option<u8>){match x{0..None=>1,_=>2}}
fn range_of_floats(x:f64){match x{0.0..=1.0=>1,_=>2}}
fn range_with_one_float(x:u8){match x{0..=1.0=>1,_=>2}}
fn range_with_a_suffix_that_is_no_type(x:u8){match x{0q..=9=>1,_=>2}}
fn range_with_a_suffix_that_is_no_type_above(x:u8){match x{300..=9q=>1,_=>2}}
fn range_with_a_path_and_a_wrong_end(x:u8){match x{'a'..=A=>1,_=>2}}
fn empty_range_with_an_unknown_suffix(x:u8){match x{9..=0q=>1,_=>2}}
fn unknown_name_in_a_range(x:u8){match x{nothing::at::all.. =>1,_=>2}}
fn in_an_alternative(x:u8){match x{1|1.5=>1,_=>2}}
fn behind_a_reference(x:&f64){match x{&1.5=>1,_=>2}}
fn behind_an_at(x:f64){match x{n@1.5=>1,_=>2}}
fn in_a_field(x:Option<f64>){match x{Some(1.5)=>1,_=>2}}
fn floats_may_be_bound(x:f64){match x{y=>1}}
fn floats_may_be_bound_in_a_form(x:Option<f32>){match x{Some(_)=>1,None=>2}}
fn in_the_third_arm(x:E){match x{E::A=>1,E::B(0)=>2,E::B(0.5)=>3,_=>4}}
