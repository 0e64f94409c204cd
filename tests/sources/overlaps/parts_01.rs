enum E{A(u8,bool),B(u8,bool),C{x:u8,y:i8}}
struct S(u8,u8);
fn other_columns_that_meet(x:(u8,u8,bool)){match x{(0..=5,0,_)=>1,(5..=9,_,true)=>2,_=>3}}
fn other_columns_that_meet_in_a_range(x:(u8,u8)){match x{(0..=5,0..=7)=>1,(5..=9,3..=20)=>2,_=>3}}
fn in_both_columns(x:(u8,u8)){match x{(0..=5,0..=7)=>1,(5..=9,7..=20)=>2,_=>3}}
fn in_one_column_where_the_other_does_not_meet(x:(u8,u8)){match x{(0..=5,0..=7)=>1,(5..=9,8..=20)=>2,_=>3}}
fn of_two_columns(x:(u8,u8)){match x{(0..=5,_)=>1,(_,5..=9)=>2,_=>3}}
fn of_one_variant(x:E){match x{E::A(0..=5,true)=>1,E::A(5..=9,_)=>2,_=>3}}
fn of_two_variants(x:E){match x{E::A(0..=5,_)=>1,E::B(5..=9,_)=>2,_=>3}}
fn of_fields_by_name(x:E){match x{E::C{y:-5..=0,x:0..=5}=>1,E::C{x:5..=9,..}=>2,E::C{y:0..=7,..}=>3,_=>4}}
fn of_a_struct(x:S){match x{S(0..=5,..)=>1,S(..,5..=9)=>2,S(5..=9,0..=5)=>3,_=>4}}
fn of_fields_behind_a_rest(x:(u8,bool,u8)){match x{(..,0..=5)=>1,(_,true,5..=9)=>2,_=>3}}
fn beside_texts(x:(u8,&str)){match x{(0..=5,"a")=>1,(5..=9,"b")=>2,(5..=7,"a")=>3,_=>4}}
fn deep_within(x:Option<(bool,Option<(u8,bool)>)>){match x{Some((true,Some((0..=5,_))))=>1,Some((_,Some((5..=9,true))))=>2,_=>3}}
