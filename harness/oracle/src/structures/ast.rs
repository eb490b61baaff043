//! Stands in for Vine's syntax tree: a span is the image's number.

#[derive(Debug, Clone, Copy, PartialEq, Eq)]
pub struct Span(pub u32);

impl Span {
    pub const NONE: Span = Span(0);
}

#[derive(Debug, Clone, PartialEq, Eq, PartialOrd, Ord)]
pub struct Ident(pub String);

#[derive(Debug, Clone, Copy)]
pub struct Flex;

impl Flex {
    pub fn sigil(self) -> &'static str {
        ""
    }
}
