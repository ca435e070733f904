//! Contexts, and the texts that are read into them.

use std::cell::RefCell;

use crate::calls::{self, Kept};
use crate::error::{Error, Result};
use crate::page::Page;

const DONE: u32 = 0;
pub(crate) const OVERFLOW: u32 = 8;
const OUT_OF_MEMORY: u32 = 9;
const NOT_TAKEN: u32 = 10;
const WRONG: u32 = 11;
const NO_ROOM: u32 = 12;

/// Values of 32 bits, or of 48.
#[derive(Clone, Copy, Debug, PartialEq, Eq)]
pub enum Width {
    Narrow,
    Wide,
}

/// What was read and made. One thread uses it at a time.
#[derive(Debug)]
pub struct Context {
    kept: RefCell<Kept>,
}

// SAFETY: the library keeps nothing of a thread, and a `RefCell` is used by one thread at a time.
unsafe impl Send for Context {}

impl Drop for Context {
    fn drop(&mut self) {
        // SAFETY: the context was made by `maugzeris_context_new`, and no page borrows it any more.
        unsafe { calls::maugzeris_context_free(self.kept.get_mut()) };
    }
}

impl Context {
    /// A context with nothing in it.
    pub fn new() -> Result<Context> {
        let mut kept = Kept {
            kept: std::ptr::null_mut(),
            live: 0,
        };
        // SAFETY: the context is made out of zeros.
        match unsafe { calls::maugzeris_context_new(&mut kept) } {
            DONE => Ok(Context {
                kept: RefCell::new(kept),
            }),
            _ => Err(Error::OutOfMemory),
        }
    }

    /// Reads a grammar in a width.
    pub fn grammar(&self, text: &str, width: Width) -> Result<Grammar<'_>> {
        let mut number = 0;
        // SAFETY: the text is as long as is said, and `number` lies apart from it.
        self.done(|kept| unsafe {
            let wide = width as u32;
            calls::maugzeris_grammar_new(kept, text.as_ptr(), text.len(), wide, &mut number)
        })?;
        Ok(Grammar {
            context: self,
            number,
        })
    }

    /// The status of a call, if it is done; a value may be Overflow then.
    pub(crate) fn status(&self, call: impl FnOnce(*mut Kept) -> u32) -> Result<u32> {
        let status = call(&mut *self.kept.borrow_mut());
        match status {
            DONE | OVERFLOW => Ok(status),
            OUT_OF_MEMORY => Err(Error::OutOfMemory),
            NOT_TAKEN => Err(Error::NotTaken),
            WRONG => Err(Error::Wrong),
            NO_ROOM => unreachable!("a buffer was asked for its length before"),
            _ => Err(Error::Refused {
                status,
                line: self.line()?,
            }),
        }
    }

    /// Makes a call that tells no value.
    pub(crate) fn done(&self, call: impl FnOnce(*mut Kept) -> u32) -> Result<()> {
        self.status(call).map(|_| ())
    }

    /// What a call puts into a buffer, with its status. It is asked for the length first.
    pub(crate) fn buffer<T: Clone + Default>(
        &self,
        call: impl Fn(*mut Kept, *mut T, usize, *mut usize) -> u32,
    ) -> Result<(Vec<T>, u32)> {
        let mut length = 0;
        let status = call(
            &mut *self.kept.borrow_mut(),
            Vec::new().as_mut_ptr(),
            0,
            &mut length,
        );
        if status != NO_ROOM {
            return Ok((Vec::new(), self.status(|_| status)?));
        }
        let mut items = vec![T::default(); length];
        let status =
            self.status(|kept| call(kept, items.as_mut_ptr(), items.len(), &mut length))?;
        Ok((items, status))
    }

    /// The line of the last refusal.
    fn line(&self) -> Result<String> {
        // SAFETY: the buffer has the room that is said.
        let (line, _) = self.buffer(|kept, line, room, length| unsafe {
            calls::maugzeris_refusal(kept, line, room, length)
        })?;
        Ok(String::from_utf8_lossy(&line).into_owned())
    }
}

/// A grammar that was read.
#[derive(Clone, Copy, Debug)]
pub struct Grammar<'c> {
    context: &'c Context,
    number: u32,
}

impl<'c> Grammar<'c> {
    /// Reads a schedule of the grammar, or finds one.
    pub fn rules(&self, schedule: Option<&str>) -> Result<Rules<'c>> {
        let text = schedule.unwrap_or("");
        let automatic = schedule.is_none();
        let (grammar, mut number) = (self.number, 0);
        // SAFETY: the text is as long as is said, and `number` lies apart from it.
        self.context.done(|kept| unsafe {
            let (at, length) = (text.as_ptr(), text.len());
            calls::maugzeris_rules_new(kept, grammar, automatic, at, length, &mut number)
        })?;
        Ok(Rules {
            context: self.context,
            number,
        })
    }
}

/// A grammar with a schedule.
#[derive(Clone, Copy, Debug)]
pub struct Rules<'c> {
    context: &'c Context,
    number: u32,
}

impl<'c> Rules<'c> {
    /// Reads a document. The page is not laid out yet.
    pub fn page(&self, document: &str) -> Result<Page<'c>> {
        let (rules, mut number) = (self.number, 0);
        // SAFETY: the text is as long as is said, and `number` lies apart from it.
        self.context.done(|kept| unsafe {
            let (at, length) = (document.as_ptr(), document.len());
            calls::maugzeris_page_new(kept, rules, at, length, &mut number)
        })?;
        Ok(Page::of(self.context, number))
    }
}
