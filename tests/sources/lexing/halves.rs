// `&&` and `>>` are two marks each, also where three stand side by side and where one of the two ends a list.
fn references(x: &&&Option<Option<u8>>) { match x { &&&Some(Some(_)) => {} && &Some(None) => {} & &&None => {} } }
fn lists(x: (Option<Option<bool>>, &&bool)) { match x { (Some(Some(_)), &&true) => {} (_, &&false) => {} } }
