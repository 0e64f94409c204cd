struct S([u8;4294967295],[u8;0],[u8;1usize],[u8;0xFFFF_FFFFusize]);
use Undeclared::*;
