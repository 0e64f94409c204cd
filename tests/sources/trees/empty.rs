// Types without values: at sure places they have no case, at others one.
enum Void {}
enum Half { Full(u8), Never(Void) }

fn nothing(x: Void) { match x {} }
fn never(x: !) { match x {} }
fn behind(x: &Void) { match *x { _ => {} } }
fn behind_without_arms(x: &Void) { match *x {} }
fn half(x: Half) { match x { Half::Full(0) => {} Half::Full(_) => {} } }
fn half_behind(x: &Half) { match *x { Half::Full(_) => {} Half::Never(_) => {} } }
fn result(x: Result<u8, Void>) { match x { Ok(n) => {} Err(e) => {} } }
fn pair(x: (Void, bool)) { match x { (_, true) => {} } }
fn pair_behind(x: &(Void, bool)) { match *x { (_, true) => {} _ => {} } }
fn slice(x: &[Void]) { match x { [] => {} _ => {} } }
fn units(x: ((), [u8; 0])) { match x { ((), []) => {} } }
