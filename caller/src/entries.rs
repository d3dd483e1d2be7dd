//! The C functions of `crates/pass_c`, declared here and nowhere else. A slice is passed as its first element and its length.

/// A refusal's number; or 0, the result's length, the runs done, and 1 if the last one left the mark.
#[repr(C)]
pub(crate) struct Inlined {
    pub refused: u32,
    pub length: usize,
    pub runs: u32,
    pub changed: u32,
}

/// A refusal's number; or 0, and how many root bindings there are.
#[repr(C)]
pub(crate) struct Roots {
    pub refused: u32,
    pub count: usize,
}

/// A refusal's number; or 0, and 1 if there is a root binding of the number asked for: then its context, text number, mark and count.
#[repr(C)]
pub(crate) struct Binding {
    pub refused: u32,
    pub found: u32,
    pub context: u64,
    pub text: u32,
    pub prevented: u32,
    pub count: u32,
}

/// A refusal's number; or 0, and how many bytes were written.
#[repr(C)]
pub(crate) struct Written {
    pub refused: u32,
    pub length: usize,
}

extern "C" {
    pub(crate) fn negbosun_inline(
        file: *const u8,
        file_length: usize,
        result: *mut u8,
        result_length: usize,
        words: *mut u32,
        word_count: usize,
        runs: u32,
    ) -> Inlined;

    pub(crate) fn negbosun_roots(
        file: *const u8,
        file_length: usize,
        roots: *mut u32,
        root_words: usize,
        words: *mut u32,
        word_count: usize,
        runs: u32,
    ) -> Roots;

    pub(crate) fn negbosun_root(
        file: *const u8,
        file_length: usize,
        words: *mut u32,
        word_count: usize,
        runs: u32,
        n: u32,
    ) -> Binding;

    pub(crate) fn negbosun_inline_under(
        file: *const u8,
        file_length: usize,
        table: *const u8,
        table_length: usize,
        result: *mut u8,
        result_length: usize,
        words: *mut u32,
        word_count: usize,
        runs: u32,
    ) -> Inlined;

    pub(crate) fn negbosun_roots_under(
        file: *const u8,
        file_length: usize,
        table: *const u8,
        table_length: usize,
        roots: *mut u32,
        root_words: usize,
        words: *mut u32,
        word_count: usize,
        runs: u32,
    ) -> Roots;

    pub(crate) fn negbosun_root_under(
        file: *const u8,
        file_length: usize,
        table: *const u8,
        table_length: usize,
        words: *mut u32,
        word_count: usize,
        runs: u32,
        n: u32,
    ) -> Binding;

    pub(crate) fn negbosun_canon(
        file: *const u8,
        file_length: usize,
        result: *mut u8,
        result_length: usize,
        words: *mut u32,
        word_count: usize,
    ) -> Written;

    pub(crate) fn negbosun_resolve(
        file: *const u8,
        file_length: usize,
        result: *mut u8,
        result_length: usize,
        words: *mut u32,
        word_count: usize,
    ) -> Written;

    pub(crate) fn negbosun_text(
        file: *const u8,
        file_length: usize,
        text: *mut u8,
        text_length: usize,
        words: *mut u32,
        word_count: usize,
    ) -> Written;
}
