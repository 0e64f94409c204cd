struct P(u8);
enum E{A}
fn flag_on_a_number(x:u8){match x{true=>1,_=>2}}
fn number_on_a_flag(x:bool){match x{1=>1,_=>2}}
fn number_on_a_character(x:char){match x{97=>1,_=>2}}
fn character_on_a_number(x:u8){match x{'a'=>1,_=>2}}
fn character_on_a_word_of_32_bits(x:u32){match x{'a'=>1,_=>2}}
fn byte_on_u8(x:u8){match x{b'a'=>1,_=>2}}
fn byte_on_i8(x:i8){match x{b'a'=>1,_=>2}}
fn byte_on_u16(x:u16){match x{b'a'=>1,_=>2}}
fn byte_on_a_character(x:char){match x{b'a'=>1,_=>2}}
fn suffix_of_the_type(x:u8){match x{1u8=>1,_=>2}}
fn suffix_behind_an_underscore(x:u8){match x{1_u8=>1,_=>2}}
fn suffix_of_another_sign(x:u8){match x{1i8=>1,_=>2}}
fn suffix_of_another_width(x:u8){match x{1u16=>1,_=>2}}
fn suffix_usize_on_u64(x:u64){match x{1usize=>1,_=>2}}
fn suffix_u64_on_usize(x:usize){match x{1u64=>1,_=>2}}
fn suffix_usize_on_usize(x:usize){match x{1usize=>1,_=>2}}
fn suffix_i128_on_i128(x:i128){match x{-1i128=>1,_=>2}}
fn suffix_with_another_base(x:u8){match x{0x1Fu8=>1,0b1u8=>2,0o7u8=>3,_=>4}}
fn suffix_on_a_flag(x:bool){match x{1u8=>1,_=>2}}
fn number_on_a_tuple(x:(u8,)){match x{1=>1,_=>2}}
fn number_on_a_struct(x:P){match x{1=>1,_=>2}}
fn number_on_an_enum(x:E){match x{0=>1,_=>2}}
fn number_on_a_slice(x:&[u8]){match x{1=>1,_=>2}}
fn number_on_an_array(x:[u8;1]){match x{1=>1,_=>2}}
fn number_on_a_text(x:&str){match x{1=>1,_=>2}}
fn number_on_never(x:!){match x{1=>1}}
fn number_on_a_float(x:f64){match x{1=>1,_=>2}}
fn number_on_a_box(x:Box<u8>){match x{1=>1,_=>2}}
fn flag_on_a_box(x:Box<bool>){match x{true=>1,_=>2}}
fn text_on_a_text(x:&str){match x{"a"=>1,_=>2}}
fn raw_text_on_a_text(x:&str){match x{r#"a"#=>1,_=>2}}
fn text_on_a_text_of_some_life(x:&'static str){match x{"a"=>1,_=>2}}
fn text_through_two_references(x:&&str){match x{"a"=>1,_=>2}}
fn text_behind_a_reference_that_is_written(x:&&str){match x{&"a"=>1,_=>2}}
fn text_on_a_mutable_text(x:&mut str){match x{"a"=>1,_=>2}}
fn text_on_what_is_behind(x:&str){match *x{"a"=>1,_=>2}}
fn text_behind_a_star(x:&&str){match *x{"a"=>1,_=>2}}
fn text_behind_a_reference_on_a_text(x:&str){match x{&"a"=>1,_=>2}}
fn text_on_a_string(x:String){match x{"a"=>1,_=>2}}
fn text_on_a_string_reference(x:&String){match x{"a"=>1,_=>2}}
fn text_on_bytes(x:&[u8]){match x{"a"=>1,_=>2}}
fn text_on_a_character(x:char){match x{"a"=>1,_=>2}}
fn text_on_a_box(x:Box<str>){match x{"a"=>1,_=>2}}
fn text_in_a_tuple_behind_a_reference(x:&(u8,&str)){match x{(_,"a")=>1,_=>2}}
fn text_in_a_tuple_behind_two_references(x:&(u8,&&str)){match x{(_,"a")=>1,_=>2}}
fn character_on_a_text(x:&str){match x{'a'=>1,_=>2}}
fn flag_through_references(x:&&mut bool){match x{true=>1,false=>2}}
fn number_through_references(x:&mut&u8){match x{0..=9=>1,10u8..=255=>2}}
fn character_through_a_reference(x:&char){match x{'a'=>1,_=>2}}
fn literal_in_the_second_arm(x:u8){match x{1=>1,false=>2,_=>3}}
fn literal_in_an_alternative(x:u8){match x{1|2|false=>2,_=>3}}
fn literal_behind_an_at(x:u8){match x{n@'n'=>2,_=>3}}
