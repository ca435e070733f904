//! Pages.

use crate::calls;
use crate::context::{Context, OVERFLOW};
use crate::error::Result;

/// The boxes of a page.
#[derive(Clone, Debug, PartialEq, Eq)]
pub struct Boxes {
    /// The text that the program prints.
    pub text: String,
    /// Whether a shown value is Overflow.
    pub overflows: bool,
}

/// A page of a context. It is freed when it is dropped.
#[derive(Debug)]
pub struct Page<'c> {
    context: &'c Context,
    number: u32,
}

impl Drop for Page<'_> {
    fn drop(&mut self) {
        // SAFETY: no pointer is passed but the context's. The page has this number, so it is done.
        let _done = self
            .context
            .done(|kept| unsafe { calls::maugzeris_page_free(kept, self.number) });
    }
}

impl<'c> Page<'c> {
    pub(crate) fn of(context: &'c Context, number: u32) -> Page<'c> {
        Page { context, number }
    }

    /// Lays the page out, where that was not done yet.
    pub fn lay_out(&mut self) -> Result<()> {
        // SAFETY: no pointer is passed but the context's.
        self.context
            .done(|kept| unsafe { calls::maugzeris_page_lay_out(kept, self.number) })
    }

    /// The boxes of a page that was laid out.
    pub fn boxes(&self) -> Result<Boxes> {
        // SAFETY: the buffer has the room that is said.
        let (text, status) = self.context.buffer(|kept, text, room, length| unsafe {
            calls::maugzeris_page_boxes(kept, self.number, text, room, length)
        })?;
        Ok(Boxes {
            text: String::from_utf8_lossy(&text).into_owned(),
            overflows: status == OVERFLOW,
        })
    }

    /// How many nodes there are. They are numbered from 0, a node before its kids.
    pub fn node_count(&self) -> Result<u32> {
        let mut count = 0;
        // SAFETY: `count` is one number.
        self.context.done(|kept| unsafe {
            calls::maugzeris_page_node_count(kept, self.number, &mut count)
        })?;
        Ok(count)
    }

    /// The attribute of a node that has this name.
    pub fn attribute(&self, node: u32, name: &str) -> Result<u32> {
        let mut attribute = 0;
        // SAFETY: the name is as long as is said, and `attribute` lies apart from it.
        self.context.done(|kept| unsafe {
            let (at, length) = (name.as_ptr(), name.len());
            calls::maugzeris_page_attribute(kept, self.number, node, at, length, &mut attribute)
        })?;
        Ok(attribute)
    }

    /// The value of an attribute of a node of a page that was laid out; none where it is Overflow.
    pub fn value(&self, node: u32, attribute: u32) -> Result<Option<i64>> {
        let mut value = 0;
        // SAFETY: `value` is one number.
        let status = self.context.status(|kept| unsafe {
            calls::maugzeris_page_value(kept, self.number, node, attribute, &mut value)
        })?;
        Ok((status != OVERFLOW).then_some(value))
    }

    /// Gives an input of a node another number, which counts from the next relayout on.
    pub fn set_input(&mut self, node: u32, attribute: u32, value: i64) -> Result<()> {
        // SAFETY: no pointer is passed but the context's.
        self.context.done(|kept| unsafe {
            calls::maugzeris_page_set_input(kept, self.number, node, attribute, value)
        })
    }

    /// Lays a page that was laid out anew after the inputs that were set, and tells how many
    /// instances that touched.
    pub fn relayout(&mut self) -> Result<usize> {
        let mut touched = 0;
        // SAFETY: `touched` is one number.
        self.context.done(|kept| unsafe {
            calls::maugzeris_page_relayout(kept, self.number, &mut touched)
        })?;
        Ok(touched)
    }

    /// The numbers of the instances that the last relayout touched, in rising order.
    pub fn touched(&self) -> Result<Vec<u32>> {
        // SAFETY: the buffer has the room that is said.
        let (touched, _) = self.context.buffer(|kept, instances, room, count| unsafe {
            calls::maugzeris_page_touched(kept, self.number, instances, room, count)
        })?;
        Ok(touched)
    }
}
