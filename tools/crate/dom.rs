//! The nodes of html2text's DOM. Below the line stands text of the crate's src/markup5ever_rcdom.rs.

use std::cell::{Cell, RefCell};
use std::fmt;
use std::mem;
use std::rc::{Rc, Weak};

use html5ever::{Attribute, QualName};
use tendril::StrTendril;

/// `append`, for the module of questions.
pub(crate) fn add_child(parent: &Handle, child: Handle) {
    append(parent, child);
}

// ----------------------------------------------------------------
