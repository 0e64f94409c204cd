fn through_a_reference(x:&u8){match x{0..=9=>1,9..=20=>2,_=>3}}
fn through_a_star(x:&u8){match *x{0..=9=>1,9..=20=>2,_=>3}}
fn a_written_one_and_one_gone_through(x:&u8){match x{&(0..=9)=>1,9..=20=>2,_=>3}}
fn through_many(x:&&mut(u8,&&bool)){match x{(0..=9,true)=>1,(9..=20,_)=>2,_=>3}}
fn in_a_part_behind_a_reference(x:(&u8,u8)){match x{(0..=9,0..=9)=>1,(&(9..=20),9..=20)=>2,_=>3}}
fn through_two_references_of_a_pair(x:&(&u8,bool)){match x{(0..=9,true)=>1,(9..=20,false)=>2,_=>3}}
