// Decimal numbers around those that are read at once, and bars.
fn numbers(x: u64) { match x { 400000000 | 4000000009 => {} 4000000010 | 4294967295|4294967296 => {} 4000000009 => {} _ => {} } }
fn bars(x: (u8, bool)) { match x { |(0|1, true)|(2, _) => {} (_, true|false) => {} } }
