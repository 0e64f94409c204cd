#[non_exhaustive] enum E{A(&E)}
use Undeclared::*;
