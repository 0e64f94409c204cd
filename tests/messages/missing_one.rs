// A missing case
enum Light { Red, Amber, Green }

pub fn go(light: Light) -> u8 {
    match light {
        Light::Red => 0,
        Light::Green => 1,
    }
}
