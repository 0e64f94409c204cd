enum Light { Red, Amber, Green }

fn may_go(light: Light) {
    match light {
        Light::Red => 0,
        Light::Green => 1,
    }
}
