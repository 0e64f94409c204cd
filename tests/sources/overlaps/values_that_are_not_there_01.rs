enum Nothing{}
fn beside_a_part_without_values(x:(u8,!)){match x{(0..=10,_)=>1,(10..=20,_)=>2,_=>3}}
fn beside_one_behind_a_reference(x:(u8,&!)){match x{(0..=10,_)=>1,(10..=20,_)=>2,_=>3}}
fn behind_a_reference_to_both(x:&(u8,!)){match x{(0..=10,_)=>1,(10..=20,_)=>2,_=>3}}
fn of_a_variant_without_values(x:Result<(u8,Nothing),u8>){match x{Ok((0..=10,_))=>1,Ok((10..=20,_))=>2,Err(0..=10)=>3,Err(10..=20)=>4,_=>5}}
fn items_behind_a_reference(x:&[(u8,!)]){match *x{[(0..=10,_),..]=>1,[(10..=20,_),..]=>2,_=>3}}
fn in_an_array_of_no_items(x:(u8,[!;0])){match x{(0..=10,_)=>1,(10..=20,[])=>2,_=>3}}
fn in_an_array_of_items_without_values(x:(u8,[!;1])){match x{(0..=10,_)=>1,(10..=20,_)=>2,_=>3}}
fn beside_what_is_not_known(x:(u8,String)){match x{(0..=10,_)=>1,(10..=20,s)=>2,_=>3}}
