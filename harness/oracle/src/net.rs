//! Stands in for ivy's nets, which an InlineIvy step carries.

#[derive(Debug, Clone)]
pub struct FlatNet;

#[derive(Debug, Clone)]
pub struct Wire;
