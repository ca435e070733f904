//! Pages laid out by attribute grammars, over the static library for C.
//!
//! A [`Context`] reads grammars; a [`Grammar`] reads schedules, [`Rules`] read documents, and a
//! [`Page`] is laid out, changed and laid out anew. A page is freed when it is dropped, and cannot
//! outlive its context; grammars and rules stay in memory until the process ends, so read each once.

mod calls;
mod context;
mod error;
mod page;

pub use context::{Context, Grammar, Rules, Width};
pub use error::{Error, Result};
pub use page::{Boxes, Page};
