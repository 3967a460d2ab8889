//! The functions of libtelfjost.a, as include/telfjost.h declares them, each behind a safe one.
//!
//! Why each call is sound: a pointer and a length are those of one slice; the row buffer is a
//! `&mut` slice, so that nothing else that is lent overlaps it; the library keeps no pointer.
#![allow(unsafe_code)]

use crate::{Entry, Lent, Limit, Set, Sub};

#[repr(C)]
pub struct Bool {
    pub refusal: usize,
    pub yes: usize,
}

#[repr(C)]
pub struct AnchorAnswer {
    pub refusal: usize,
    pub anchor: usize,
    pub id_place: usize,
    pub id_count: usize,
    pub text_place: usize,
    pub text_count: usize,
    pub consumed: usize,
    pub discard: usize,
}

macro_rules! of_a_line_alone {
    ($($name:ident: $called:ident -> $answer:ident)*) => {
        #[link(name = "telfjost", kind = "static")]
        extern "C" {
            $(fn $called(
                kinds: *const u8,
                kinds_len: usize,
                text: *const u8,
                text_len: usize,
                pairs: *const u32,
                pairs_len: usize,
            ) -> $answer;)*
        }
        $(pub fn $name(line: Lent<'_>) -> $answer {
            let Lent { kinds, text, pairs } = line;
            // SAFETY: see above.
            unsafe {
                $called(
                    kinds.as_ptr(),
                    kinds.len(),
                    text.as_ptr(),
                    text.len(),
                    pairs.as_ptr(),
                    pairs.len(),
                )
            }
        })*
    };
}

of_a_line_alone! {
    is_block_attr_list: telfjost_is_block_attr_list -> Bool
    block_anchor: telfjost_block_anchor -> AnchorAnswer
    inline_anchor: telfjost_inline_anchor -> AnchorAnswer
}

// ---- substitutions

#[repr(C)]
pub struct SetAnswer {
    pub refusal: usize,
    pub set: Set,
}

#[link(name = "telfjost", kind = "static")]
extern "C" {
    fn telfjost_from_meta(set: Set, present: bool, text: *const u8, text_len: usize) -> SetAnswer;
    fn telfjost_from_meta_sheet(set: Set, present: bool, text: *const u8, text_len: usize) -> SetAnswer;
}

pub fn from_meta(set: Set, subs: Option<&[u8]>) -> SetAnswer {
    let text = subs.unwrap_or_default();
    // SAFETY: see above.
    unsafe { telfjost_from_meta(set, subs.is_some(), text.as_ptr(), text.len()) }
}

pub fn from_meta_sheet(set: Set, subs: Option<&[u8]>) -> SetAnswer {
    let text = subs.unwrap_or_default();
    // SAFETY: see above.
    unsafe { telfjost_from_meta_sheet(set, subs.is_some(), text.as_ptr(), text.len()) }
}

macro_rules! moves {
    ($($name:ident: $called:ident)*) => {
        #[link(name = "telfjost", kind = "static")]
        extern "C" {
            $(fn $called(set: Set, kind: u8) -> SetAnswer;)*
        }
        $(pub fn $name(set: Set, kind: Sub) -> SetAnswer {
            // SAFETY: values alone are handed over.
            unsafe { $called(set, kind.number()) }
        })*
    };
}

moves! {
    insert: telfjost_insert
    remove: telfjost_remove
    prepend: telfjost_prepend
    insert_sheet: telfjost_insert_sheet
    remove_sheet: telfjost_remove_sheet
    prepend_sheet: telfjost_prepend_sheet
}

macro_rules! starting_sets {
    ($($name:ident: $called:ident)*) => {
        #[link(name = "telfjost", kind = "static")]
        extern "C" {
            $(fn $called() -> Set;)*
        }
        $(pub fn $name() -> Set {
            // SAFETY: a value alone is handed over.
            unsafe { $called() }
        })*
    };
}

starting_sets! {
    none: telfjost_none
    normal: telfjost_normal
    verbatim: telfjost_verbatim
    attr_value: telfjost_attr_value
    only_special_chars: telfjost_only_special_chars
    all: telfjost_all
}

#[link(name = "telfjost", kind = "static")]
extern "C" {
    fn telfjost_set_refusal(set: Set) -> usize;
    fn telfjost_set_refusal_sheet(set: Set) -> usize;
    fn telfjost_contains(set: Set, kind: u8) -> bool;
}

pub fn set_refusal(set: Set) -> usize {
    // SAFETY: values alone are handed over.
    unsafe { telfjost_set_refusal(set) }
}

pub fn set_refusal_sheet(set: Set) -> usize {
    // SAFETY: values alone are handed over.
    unsafe { telfjost_set_refusal_sheet(set) }
}

pub fn contains(set: Set, kind: Sub) -> bool {
    // SAFETY: values alone are handed over.
    unsafe { telfjost_contains(set, kind.number()) }
}

// ---- lists

#[repr(C)]
pub struct ListAnswer {
    pub refusal: usize,
    pub rows: usize,
    pub consumed: usize,
    pub rejoined: usize,
}

macro_rules! lists {
    ($($name:ident)*) => {
        #[link(name = "telfjost", kind = "static")]
        extern "C" {
            $(fn $name(
                kinds: *const u8,
                kinds_len: usize,
                text: *const u8,
                text_len: usize,
                pairs: *const u32,
                pairs_len: usize,
                rows: *mut u32,
                rows_len: usize,
            ) -> ListAnswer;)*
        }
    };
}

lists! {
    telfjost_block_attr_list
    telfjost_block_macro_attr_list
    telfjost_inline_macro_attr_list
    telfjost_link_macro_attr_list
    telfjost_viewer_block_attr_list
    telfjost_viewer_block_macro_attr_list
    telfjost_viewer_inline_macro_attr_list
    telfjost_viewer_link_macro_attr_list
}

pub fn read(limit: Limit, entry: Entry, line: Lent<'_>, rows: &mut [u32]) -> ListAnswer {
    let Lent { kinds, text, pairs } = line;
    let called = match (limit, entry) {
        (Limit::Main, Entry::Block) => telfjost_block_attr_list,
        (Limit::Main, Entry::BlockMacro) => telfjost_block_macro_attr_list,
        (Limit::Main, Entry::InlineMacro) => telfjost_inline_macro_attr_list,
        (Limit::Main, Entry::LinkMacro) => telfjost_link_macro_attr_list,
        (Limit::Viewer, Entry::Block) => telfjost_viewer_block_attr_list,
        (Limit::Viewer, Entry::BlockMacro) => telfjost_viewer_block_macro_attr_list,
        (Limit::Viewer, Entry::InlineMacro) => telfjost_viewer_inline_macro_attr_list,
        (Limit::Viewer, Entry::LinkMacro) => telfjost_viewer_link_macro_attr_list,
    };
    // SAFETY: see above.
    unsafe {
        called(
            kinds.as_ptr(),
            kinds.len(),
            text.as_ptr(),
            text.len(),
            pairs.as_ptr(),
            pairs.len(),
            rows.as_mut_ptr(),
            rows.len(),
        )
    }
}
