//! The original, compiled unchanged: lexer, operations, ast and parser of tiaanl/my-rusty-computer.
#![allow(warnings)]
include!(concat!(env!("OUT_DIR"), "/modules.rs"));
