fn characters_on_a_number(x:u8){match x{'a'..='z'=>1,_=>2}}
fn numbers_on_a_character(x:char){match x{0..=9=>1,_=>2}}
fn bytes_on_u8(x:u8){match x{b'a'..=b'z'=>1,_=>2}}
fn a_byte_and_a_number_on_u8(x:u8){match x{b'a'..=255=>1,0..b'a'=>2}}
fn bytes_on_a_character(x:char){match x{b'a'..=b'z'=>1,_=>2}}
fn bytes_on_i8(x:i8){match x{b'a'..=b'z'=>1,_=>2}}
fn only_the_low_end(x:u8){match x{'a'..=9=>1,_=>2}}
fn only_the_high_end(x:u8){match x{0..='9'=>1,_=>2}}
fn one_end_alone(x:u8){match x{..='9'=>1,_=>2}}
fn one_end_alone_from_below(x:u8){match x{'0'.. =>1,_=>2}}
fn suffix_of_another_type_below(x:u8){match x{0u16..=9=>1,_=>2}}
fn suffix_of_another_type_above(x:u8){match x{0..9i8=>1,_=>2}}
fn suffix_at_both_ends(x:i16){match x{-1i16..=1i16=>1,_=>2}}
fn numbers_on_a_flag(x:bool){match x{0..=1=>1,_=>2}}
fn numbers_on_an_option(x:Option<u8>){match x{0.. =>1,_=>2}}
fn numbers_on_a_float(x:f32){match x{0.. =>1,_=>2}}
fn numbers_through_references(x:&&u8){match x{0..=9=>1,10.. =>2}}
fn characters_through_a_reference(x:&char){match x{..='z'=>1,'z'.. =>2}}
fn numbers_behind_a_box(x:Box<u8>){match x{0.. =>1,_=>2}}
fn empty_and_of_the_wrong_type(x:u8){match x{'z'..='a'=>1,_=>2}}
fn out_of_range_and_of_the_wrong_type(x:u8){match x{300..='a'=>1,_=>2}}
