//! Shim: the original bounds one type by a trait of its field code, of which it uses nothing here.

pub trait FieldExtension {}
