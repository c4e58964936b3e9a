//! The reference implementation, built from the originals. Nothing of it is stored here: build.rs makes the module tree.
#![allow(dead_code, unused_imports, unused_variables)]

include!(concat!(env!("OUT_DIR"), "/csx.rs"));
