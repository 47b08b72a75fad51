//! The second program: the board of document 01, its simple machine and its drill, written from the paper alone.
#![deny(warnings)]

pub mod bench;
pub mod bits;
pub mod board;
pub mod call;
pub mod causes;
pub mod checksum;
pub mod damage;
pub mod drill;
pub mod effects;
pub mod explore;
pub mod fault;
pub mod fault_script;
pub mod hex;
pub mod hex_program;
pub mod line;
pub mod locks;
pub mod machine;
pub mod misread;
pub mod mistake;
pub mod page;
pub mod page_script;
pub mod program;
pub mod random;
pub mod reached;
pub mod record;
pub mod say;
pub mod script;
mod sound;
pub mod text;
pub mod texts;
mod work;
