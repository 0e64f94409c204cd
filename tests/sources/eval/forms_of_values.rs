enum E{A,B(u8,bool),C{r#type:char,y:&'static str}}
fn f(x:&E){match x{e=>1}}
