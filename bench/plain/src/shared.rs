//! A value that many hold.

#[cfg(not(feature = "threads"))]
pub use std::rc::Rc as Shared;
#[cfg(feature = "threads")]
pub use std::sync::Arc as Shared;
