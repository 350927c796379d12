//! Compares every call of the library's C interface with the judge, an implementation of document 01 that shares
//! no line with it. All buffers that the library gets have guards on both sides.

pub mod builds;
pub mod calls;
pub mod found;
pub mod grids;
pub mod lent;
pub mod owners;
pub mod refusals;
pub mod samples;
pub mod sections;
pub mod subject;
