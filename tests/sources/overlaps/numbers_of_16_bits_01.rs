fn the_greatest_number_of_usize(x:usize){match x{0..=65535=>1,65535.. =>2}}
fn the_two_greatest_numbers_of_usize(x:usize){match x{0..=65534=>1,65534.. =>2}}
fn the_least_number_of_isize(x:isize){match x{..=-32768=>1,-32768..=32767=>2}}
fn the_two_least_numbers_of_isize(x:isize){match x{..=-32767=>1,-32767.. =>2}}
