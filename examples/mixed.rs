// An enum without fields, and a struct behind a reference.
enum Light { Red, Amber, Green }

struct Crossing<'a> {
    light: Light,
    name: &'a str,
}

fn must_stop(light: Light) -> bool {
    match light {
        Light::Red => true,
        Light::Amber => true,
        Light::Green => false,
    }
}

fn is_named(crossing: &Crossing<'_>) -> bool {
    match crossing {
        Crossing { name: "", .. } => false,
        _ => true,
    }
}
