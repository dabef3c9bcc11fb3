//! The stylesheet half of html2text 0.17.4, to be asked what it reads and matches. Below the line stands text of the crate's src/lib.rs.
#![allow(dead_code, unused_imports, deprecated)]

#[macro_use]
extern crate html5ever;
#[macro_use]
mod macros;

pub mod answers;
pub mod css;
mod markup5ever_rcdom;

pub use html5ever::{expanded_name, local_name, namespace_url, ns};

use std::io;

// ----------------------------------------------------------------
