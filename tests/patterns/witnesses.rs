enum E{A(),B{},C}
enum K{r#fn(bool),V{r#in:bool,b:bool}}
#[non_exhaustive]enum M{A(bool)}
struct T();
struct U;
struct r#match(bool,u8);
fn each_flag_in_order(x:(bool,bool)){match x{(true,true)=>1}}
fn a_form_without_parts_keeps_its_brackets(x:E){match x{E::C=>1}}
fn a_variant_that_is_a_keyword(x:K){match x{K::r#fn(true)=>1,K::V{r#in:true,..}=>2}}
fn a_struct_that_is_a_keyword(x:r#match){match x{r#match(true,..)=>1}}
fn a_range_behind_a_reference_has_no_brackets(x:&u8){match x{5.. =>1}}
fn a_range_behind_a_mutable_reference(x:&mut i8){match x{0.. =>1}}
fn two_references(x:&&bool){match x{true=>1}}
fn a_slice_of_any_length(x:(&[u8],bool)){match x{([..],true)=>1}}
fn lengths_up_to_the_longest(x:&[bool]){match x{[_,_,..]=>1,[true]=>2}}
fn lengths_behind_the_longest_fixed_one(x:&[bool]){match x{[]|[_]|[_,_]=>1}}
fn both_sides_of_a_rest(x:&[bool]){match x{[true,..]|[..,true]=>1,[]|[_]=>2}}
fn a_fixed_length_makes_the_front_longer(x:&[bool]){match x{[..,true]=>1,[]|[_]|[_,_]=>2}}
fn an_array_is_split_from_both_ends(x:[bool;4]){match x{[true,..]=>1,[..,true,_]=>2}}
fn an_array_that_the_ends_fill(x:[bool;3]){match x{[true,..]=>1,[..,true,_]=>2}}
fn texts_ascend_by_bytes(x:(&str,bool)){match x{("b",true)=>1,("a",true)=>2,("é",true)|("",true)=>3,(_,true)=>4,("b",_)=>5}}
fn a_text_with_marks_in_it(x:(&str,bool)){match x{("\"\\'\n",true)=>1,(_,true)=>2,("",false)=>3}}
fn later_variants_stand_last(x:M){match x{M::A(true)=>1}}
fn later_variants_within(x:Option<&M>){match x{Some(M::A(_))|None=>1}}
fn characters_in_their_form(x:char){match x{'b'..='\u{10ffff}'=>1,..'a'=>2}}
fn characters_on_both_sides_of_the_hole(x:char){match x{'\0'=>1,'\u{ffff}'.. =>2}}
fn the_greatest_number(x:u128){match x{..340282366920938463463374607431768211455=>1}}
fn the_least_number(x:i128){match x{-170141183460469231731687303715884105727.. =>1}}
fn the_greatest_literal_of_usize(x:usize){match x{..18446744073709551615=>1}}
fn around_one_number_of_isize(x:isize){match x{0=>1}}
fn a_number_of_any_size(x:(usize,bool)){match x{(0..,true)=>1}}
fn a_unit_struct_and_a_tuple_struct(x:(U,T,bool)){match x{(U,T(),true)=>1}}
fn a_unit_tuple(x:((),bool)){match x{((),true)=>1}}
fn wildcards_split_nothing(x:(u8,Option<bool>,u8)){match x{(_,None,_)=>1,(a,Some(true),b)=>2}}
fn a_range_of_all_numbers_splits_nothing_off(x:(u8,bool)){match x{(0..=255,true)=>1}}
fn numbers_are_cut_where_any_row_cuts(x:(u8,bool)){match x{(0..=9,true)=>1,(5..,false)=>2}}
fn what_has_no_value_is_not_missing(x:(Option<!>,bool)){match x{(None,true)=>1}}
fn what_has_a_value_behind_a_reference_is_missing(x:&(Option<!>,bool)){match x{(None,_)=>1}}
fn what_is_unseen_alone_is_not_missing(x:&!){match *x{}}
fn what_is_unseen_within_is_missing(x:&(!,bool)){match *x{(_,true)=>1}}
fn an_or_pattern_is_expanded_in_its_place(x:(u8,bool)){match x{(0|1,true)|(1|2,false)=>1}}
fn guarded_arms_cover_nothing(x:Option<bool>){match x{Some(_) if g()=>1,None=>2}}
fn guarded_arms_cut_nothing(x:u8){match x{5..=9 if g()=>1,0=>2}}
fn control_characters_in_a_text(x:(&str,bool)){match x{("\t\u{0}\u{7f}\u{1f}~",true)=>1,(_,true)=>2,("",false)=>3}}
