//! Keyed seals of site files, written from the documents alone and sharing no code with the verified library.

pub mod families;
pub mod generate;
pub mod gf2;
pub mod image;
pub mod lines;
pub mod program;
pub mod site;
