//! The calls as `maugzeris.h` declares them.

/// What a program holds. Its fields are the library's.
#[repr(C)]
#[derive(Debug)]
pub struct Kept {
    pub kept: *mut u8,
    pub live: u32,
}

unsafe extern "C" {
    pub fn maugzeris_context_new(context: *mut Kept) -> u32;
    pub fn maugzeris_context_free(context: *mut Kept) -> u32;
    pub fn maugzeris_grammar_new(
        context: *mut Kept,
        text: *const u8,
        length: usize,
        width: u32,
        grammar: *mut u32,
    ) -> u32;
    pub fn maugzeris_rules_new(
        context: *mut Kept,
        grammar: u32,
        automatic: bool,
        schedule: *const u8,
        length: usize,
        rules: *mut u32,
    ) -> u32;
    pub fn maugzeris_page_new(
        context: *mut Kept,
        rules: u32,
        document: *const u8,
        length: usize,
        page: *mut u32,
    ) -> u32;
    pub fn maugzeris_page_free(context: *mut Kept, page: u32) -> u32;
    pub fn maugzeris_refusal(
        context: *mut Kept,
        line: *mut u8,
        room: usize,
        length: *mut usize,
    ) -> u32;
    pub fn maugzeris_page_lay_out(context: *mut Kept, page: u32) -> u32;
    pub fn maugzeris_page_boxes(
        context: *mut Kept,
        page: u32,
        text: *mut u8,
        room: usize,
        length: *mut usize,
    ) -> u32;
    pub fn maugzeris_page_node_count(context: *mut Kept, page: u32, count: *mut u32) -> u32;
    pub fn maugzeris_page_attribute(
        context: *mut Kept,
        page: u32,
        node: u32,
        name: *const u8,
        length: usize,
        attribute: *mut u32,
    ) -> u32;
    pub fn maugzeris_page_value(
        context: *mut Kept,
        page: u32,
        node: u32,
        attribute: u32,
        value: *mut i64,
    ) -> u32;
    pub fn maugzeris_page_set_input(
        context: *mut Kept,
        page: u32,
        node: u32,
        attribute: u32,
        value: i64,
    ) -> u32;
    pub fn maugzeris_page_relayout(context: *mut Kept, page: u32, touched: *mut usize) -> u32;
    pub fn maugzeris_page_touched(
        context: *mut Kept,
        page: u32,
        instances: *mut u32,
        room: usize,
        count: *mut usize,
    ) -> u32;
}
