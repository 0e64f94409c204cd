fn r#match(x: bool) { match x { r#in => 1 } }
