fn f(x: bool) {
    match x {
        _ => {

 	
‎‏  
a
b
//
a//b
a//b
c
//ab
c
//a b
//'"/*
/**/a
/***/a
/*/*a*/b*/c
/*"*/a
        }
    }
}
