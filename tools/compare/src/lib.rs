//! Both sides of the comparison with html2text: what is asked, how it is generated, and the engine's exported functions.

pub mod asked;
pub mod book;
pub mod engine;
pub mod generate;
pub mod guarded;
pub mod height;
pub mod pages;
pub mod questions;
pub mod ran;
pub mod random;
pub mod short;
pub mod shrink;
pub mod styled;
pub mod vectors;
