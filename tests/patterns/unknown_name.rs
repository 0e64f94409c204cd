enum E{A,B(u8),C{c:u8}}
struct U;
struct P(u8);
struct R{r:u8}
fn no_variant_of_that_name(x:E){match x{E::D=>1,_=>2}}
fn no_variant_of_that_name_with_round_brackets(x:E){match x{E::D(_)=>1,_=>2}}
fn no_variant_of_that_name_with_curly_brackets(x:E){match x{E::D{..}=>1,_=>2}}
fn each_variant_has_its_name(x:E){match x{E::A=>1,E::B(_)=>2,E::C{..}=>3}}
fn no_enum_of_that_name(x:E){match x{F::A=>1,_=>2}}
fn before_the_colons_stands_a_struct(x:P){match x{P::P(_)=>1,_=>2}}
fn before_the_colons_stands_a_number_type(x:u8){match x{u8::MAX=>1,_=>2}}
fn before_the_colons_stands_a_variant(x:E){match x{A::A=>1,_=>2}}
fn before_the_colons_stands_an_opaque_type(x:String){match x{String::new=>1,_=>2}}
fn unknown_name_with_round_brackets(x:P){match x{Q(_)=>1,_=>2}}
fn unknown_name_with_curly_brackets(x:R){match x{Q{..}=>1,_=>2}}
fn unknown_name_without_brackets_binds(x:P){match x{Q=>1}}
fn variant_alone_with_brackets_is_not_imported(x:E){match x{B(_)=>1,_=>2}}
fn variant_alone_is_not_imported_and_binds(x:E){match x{A=>1}}
fn enum_alone_with_brackets(x:E){match x{E(_)=>1,_=>2}}
fn enum_alone_binds(x:E){match x{E=>1}}
fn struct_alone_is_found(x:U){match x{U=>1}}
fn option_by_its_name(x:Option<u8>){match x{Option::Some(_)=>1,Option::None=>2}}
fn option_without_its_name(x:Option<u8>){match x{Some(_)=>1,None=>2}}
fn result_by_its_name(x:Result<u8,u8>){match x{Result::Ok(_)=>1,Result::Err(_)=>2}}
fn variant_of_the_other_built_in_enum(x:Option<u8>){match x{Option::Ok(_)=>1,_=>2}}
fn variant_of_another_case(x:Option<u8>){match x{some(_)=>1,_=>2}}
fn raw_name_is_the_plain_one(x:E){match x{r#E::r#A=>1,E::B(_)|E::C{c:_}=>2}}
fn behind_a_fine_arm(x:E){match x{E::A=>1,E::B(0..)=>2,E::F=>3}}
fn in_a_field(x:Option<E>){match x{Some(E::F)=>1,_=>2}}
fn in_an_alternative(x:E){match x{E::A|E::F=>1,_=>2}}
fn behind_an_at(x:E){match x{y@E::F=>1,_=>2}}
fn behind_a_reference(x:&E){match x{&E::F=>1,_=>2}}
fn in_round_brackets(x:E){match x{(E::F)=>1,_=>2}}
fn type_does_not_matter(x:u8){match x{E::F=>1,_=>2}}
