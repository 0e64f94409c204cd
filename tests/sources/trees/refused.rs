// A function that is refused has no tree, and the others have theirs.
enum Light { Red, Green }
fn broken(x: Light) { match x { Light::Blue => {} } }
fn fine(x: Light) { match x { Light::Red => {} Light::Green => {} } }
