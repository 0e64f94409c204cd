fn of_one_arm(x:u8){match x{0..=9|9..=20=>1,_=>2}}
fn of_two_arms(x:u8){match x{0..=9|30..=40=>1,9..=20|20..=30=>2,_=>3}}
fn in_round_brackets(x:u8){match x{(0..=9)=>1,((9..=20)|(20..=30))=>2,_=>3}}
fn with_names(x:u8){match x{a@0..=9=>1,a@(9..=20|20..=30) if g()=>2,_=>3}}
fn within_one_another(x:Option<u8>){match x{Some((0..=9|(50..=60|70..=80))|(9..=20))|None=>1,Some(60..=70)=>2,_=>3}}
fn of_two_fields_of_one_arm(x:(u8,u8)){match x{(0..=9|9..=20,5..=7|7..=9)=>1,_=>2}}
fn beside_others_that_do_not_meet(x:(u8,bool)){match x{(0..=9,true)|(9..=20,false)=>1,_=>2}}
fn beside_others_of_which_some_meet(x:(u8,u8)){match x{(0..=9,1|2)=>1,(9..=20,3|2)=>2,_=>3}}
fn beside_others_of_which_none_meet(x:(u8,u8)){match x{(0..=9,1|2)=>1,(9..=20,3|4)=>2,_=>3}}
fn through_one_alternative_alone(x:(u8,bool)){match x{(0..=9,true)|(0..=9,false)=>1,(9..=20,false)=>2,_=>3}}
fn one_part_of_two_ways(x:(u8,bool)){match x{(0..=9,_|true)=>1,(9..=20,_)=>2,_=>3}}
