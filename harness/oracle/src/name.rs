//! Stands in for ivy's name table, which an InlineIvy step carries.

#[derive(Debug, Clone)]
pub struct Table;
