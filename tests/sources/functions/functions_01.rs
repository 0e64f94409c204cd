fn f(x:u8){match x{}}
fn f(mut x:u8){match x{}}
fn f(x:u8,){match x{}}
fn f(r#x:u8){match x{}}
fn f(r#mut:u8){match r#mut{}}
fn f(x:u8)->u8{match x{_=>1}}
fn f(x:u8)->Vec<(u8,[u8;3])>where T:X{match x{_=>1}}
fn f(x:u8)->[u8;{3}]{match x{_=>1}}
fn f(x:u8)->(){match x{_=>()}}
fn f(x:u8)->a;=>b,c{match x{_=>1}}
fn f(x:!){match *x{}}
fn f( mut x : & u8 , ) -> u8 { match * x { & _ => { } } }
fn f(x:&&u8){match x{&&_=>1}}
fn f(x:Option<Vec<u8>>){match x{_=>1}}
fn f(x:u8){match x{1=>a,_=>b}}
fn f(x:u8){match x{1=>a,_=>b,}}
fn f(x:u8){match x{1=>{}_=>{}}}
fn f(x:u8){match x{1=>{},_=>{},}}
fn f(x:u8){match x{1=>{{}(,)[=>]}_=>b}}
fn f(x:u8){match x{1=>(a,b),2=>f(|y|{y=>1},[1,2]),_=>c}}
fn f(x:u8){match x{1=>match y{2=>3,},_=>4}}
fn f(x:u8){match x{1=>if a{b}else{c},_=>if a{b}else{c}}}
fn f(x:u8){match x{1=>a&&b,2=>a>>b,_=>'l:loop{},}}
fn f(x:u8){match x{1=>-{},_=>a;b}}
fn f(x:u8){match x{1 if a=>b,_=>c}}
fn f(x:u8){match x{y if y==1=>{}_=>c}}
fn f(x:u8){match x{1 if a,b=>c}}
fn f(x:u8){match x{1 if(a=>b)=>c}}
fn f(x:u8){match x{1 if{a=>b}=>c}}
fn f(x:u8){match x{(1)if a=>{}2|3 if b=>{},_=>1}}
fn f(x:u8){match x{|1=>a,|2|3=>b}}
fn f(x:u8){match x{#[a]#[b(c)]1=>2,#[(d)]_=>3}}
fn f(x:u8){match x{1..=2=>a,3.. =>b}}
fn f(x:u8){match x{A{y,..}=>{}B(..)=>y,}}
x
