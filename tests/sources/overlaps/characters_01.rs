fn letters(x:char){match x{'a'..='m'=>1,'m'..='z'=>2,_=>3}}
fn before_the_numbers_of_no_character(x:char){match x{..='\u{d7ff}'=>1,'\u{d7ff}'.. =>2}}
fn behind_the_numbers_of_no_character(x:char){match x{..='\u{e000}'=>1,'\u{e000}'.. =>2}}
fn next_to_each_other_over_them(x:char){match x{..='\u{d7ff}'=>1,'\u{e000}'.. =>2}}
fn an_end_behind_them_that_is_left_out(x:char){match x{..'\u{e000}'=>1,'\u{d7ff}'..='\u{e001}'=>2,_=>3}}
fn two_characters_on_both_sides_of_them(x:char){match x{..='\u{e000}'=>1,'\u{d7ff}'.. =>2}}
fn one_character_before_them(x:char){match x{'\u{d7ff}'..'\u{e000}'=>1,..='\u{d7ff}'=>2,'\u{d7ff}'.. =>3}}
fn the_last_character(x:char){match x{'\u{10ffff}'.. =>1,..='\u{10ffff}'=>2}}
fn the_first_two_characters(x:char){match x{..='\u{1}'=>1,'\u{1}'.. =>2}}
