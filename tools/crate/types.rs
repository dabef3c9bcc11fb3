//! `css/types.rs`, which is not in the source at hand: what its uses in css.rs and css/parser.rs ask for.

#[derive(Debug, Clone, Copy, PartialEq, Eq)]
pub(crate) enum Importance {
    Default,
    Important,
}
