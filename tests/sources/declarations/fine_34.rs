#![cfg(a)] #[derive(Debug)] #[non_exhaustive] pub enum E{#[cfgs] A(#[a::cfg] u8)}
use Undeclared::*;
