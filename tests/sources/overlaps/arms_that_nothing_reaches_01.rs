fn behind_a_wildcard(x:u8){match x{_=>1,0..=9=>2,9..=20=>3}}
fn behind_all_of_its_numbers(x:u8){match x{0..=9=>1,5..=20=>2,9..=15=>3,_=>4}}
