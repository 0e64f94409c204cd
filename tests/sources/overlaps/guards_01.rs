fn both_arms_guarded(x:u8){match x{0..=9 if g()=>1,9..=20 if g()=>2,_=>3}}
fn the_earlier_arm_guarded(x:u8){match x{0..=9 if g()=>1,9..=20=>2,_=>3}}
fn the_later_arm_guarded(x:u8){match x{0..=9=>1,9..=20 if g()=>2,_=>3}}
fn two_ways_of_a_guarded_arm(x:u8){match x{0..=9|9..=20 if g()=>1,_=>2}}
