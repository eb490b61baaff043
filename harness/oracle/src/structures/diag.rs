//! Stands in for Vine's diagnostics: they are kept in the order of the calls, errors and warnings alike.

use crate::structures::ast::Span;

#[derive(Debug, Clone, PartialEq, Eq)]
pub enum Diag {
    CannotInfer { span: Span },
    InfiniteLoop { span: Span },
    CannotDrop { span: Span, ty: String },
    UninitializedVariable { span: Span, ty: String },
    CannotFork { span: Span, ty: String },
    ValueLaterUsedHere { span: Span },
}

#[derive(Debug, Default)]
pub struct Diags {
    pub diags: Vec<Diag>,
}

impl Diags {
    pub fn error(&mut self, diag: Diag) -> ErrorGuaranteed {
        self.diags.push(diag);
        ErrorGuaranteed::new_unchecked()
    }

    pub fn warn(&mut self, diag: Diag) {
        self.diags.push(diag);
    }
}

#[derive(Debug, Clone, Copy, PartialEq, Eq, PartialOrd, Ord)]
pub struct ErrorGuaranteed(());

impl ErrorGuaranteed {
    pub const fn new_unchecked() -> Self {
        ErrorGuaranteed(())
    }
}
