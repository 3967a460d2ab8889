//! The functions of the static library, as `include/telfjost.h` declares them. Which of them
//! exist is said by `exports.txt`, which the build turns into `--cfg export="NAME"`.

use crate::lines::LineBuf;
use crate::numbers::{AnchorEntry, Entry, Lent, Mode, Move, Set};

#[derive(Debug, Clone, Copy, PartialEq, Eq)]
#[repr(C)]
pub struct List {
    pub refusal: usize,
    pub rows: usize,
    pub consumed: usize,
    pub rejoined: usize,
}

#[derive(Debug, Clone, Copy, PartialEq, Eq)]
#[repr(C)]
pub struct Bool {
    pub refusal: usize,
    pub yes: usize,
}

#[derive(Debug, Clone, Copy, PartialEq, Eq, Default)]
#[repr(C)]
pub struct Anchor {
    pub refusal: usize,
    pub anchor: usize,
    pub id_place: usize,
    pub id_count: usize,
    pub text_place: usize,
    pub text_count: usize,
    pub consumed: usize,
    pub discard: usize,
}

impl Anchor {
    pub fn refused(refusal: usize) -> Self {
        Anchor { refusal, ..Anchor::default() }
    }

    pub fn numbers(&self) -> [usize; 8] {
        let Anchor { refusal, anchor, id_place, id_count, text_place, text_count, consumed, discard } = *self;
        [refusal, anchor, id_place, id_count, text_place, text_count, consumed, discard]
    }
}

#[derive(Debug, Clone, Copy, PartialEq, Eq)]
#[repr(C)]
pub struct SetAnswer {
    pub refusal: usize,
    pub set: Set,
}

type ListFn =
    unsafe extern "C" fn(*const u8, usize, *const u8, usize, *const u32, usize, *mut u32, usize) -> List;
type BoolFn = unsafe extern "C" fn(*const u8, usize, *const u8, usize, *const u32, usize) -> Bool;
type AnchorFn = unsafe extern "C" fn(*const u8, usize, *const u8, usize, *const u32, usize) -> Anchor;
type SubsFn = unsafe extern "C" fn(Set, bool, *const u8, usize) -> SetAnswer;
type MoveFn = unsafe extern "C" fn(Set, u8) -> SetAnswer;
type RefusalFn = unsafe extern "C" fn(Set) -> usize;
type StartFn = unsafe extern "C" fn() -> Set;
/// The answer is a bool of C; as a number it can be told from anything that is not 0 or 1.
type ContainsFn = unsafe extern "C" fn(Set, u8) -> u8;

/// An export, if it is listed.
macro_rules! export {
    ($name:literal, $symbol:ident: $shape:ty) => {{
        #[cfg(export = $name)]
        {
            // SAFETY: the shape is the one that the header declares.
            unsafe extern "C" {
                #[link_name = $name]
                static $symbol: u8;
            }
            Some(unsafe { std::mem::transmute::<*const u8, $shape>(&raw const $symbol) })
        }
        #[cfg(not(export = $name))]
        {
            None::<$shape>
        }
    }};
}

/// Whose readings: the main reader's, or the small viewer's.
#[derive(Debug, Clone, Copy, PartialEq, Eq)]
pub enum Reader {
    Main,
    Viewer,
}

/// Where there are two of a kind, port mode stands first and sheet mode second.
#[derive(Default)]
pub struct Library {
    /// The main reader's, then the viewer's.
    lists: [[Option<ListFn>; 4]; 2],
    is_block_attr_list: Option<BoolFn>,
    anchors: [Option<AnchorFn>; 2],
    from_meta: [Option<SubsFn>; 2],
    moves: [[Option<MoveFn>; 3]; 2],
    set_refusal: [Option<RefusalFn>; 2],
    starts: [Option<StartFn>; 6],
    contains: Option<ContainsFn>,
}

impl Library {
    pub fn linked() -> Self {
        Library {
            lists: [
                [
                    export!("telfjost_block_attr_list", f: ListFn),
                    export!("telfjost_block_macro_attr_list", f: ListFn),
                    export!("telfjost_inline_macro_attr_list", f: ListFn),
                    export!("telfjost_link_macro_attr_list", f: ListFn),
                ],
                [
                    export!("telfjost_viewer_block_attr_list", f: ListFn),
                    export!("telfjost_viewer_block_macro_attr_list", f: ListFn),
                    export!("telfjost_viewer_inline_macro_attr_list", f: ListFn),
                    export!("telfjost_viewer_link_macro_attr_list", f: ListFn),
                ],
            ],
            is_block_attr_list: export!("telfjost_is_block_attr_list", f: BoolFn),
            anchors: [
                export!("telfjost_block_anchor", f: AnchorFn),
                export!("telfjost_inline_anchor", f: AnchorFn),
            ],
            from_meta: [
                export!("telfjost_from_meta", f: SubsFn),
                export!("telfjost_from_meta_sheet", f: SubsFn),
            ],
            moves: [
                [
                    export!("telfjost_insert", f: MoveFn),
                    export!("telfjost_remove", f: MoveFn),
                    export!("telfjost_prepend", f: MoveFn),
                ],
                [
                    export!("telfjost_insert_sheet", f: MoveFn),
                    export!("telfjost_remove_sheet", f: MoveFn),
                    export!("telfjost_prepend_sheet", f: MoveFn),
                ],
            ],
            set_refusal: [
                export!("telfjost_set_refusal", f: RefusalFn),
                export!("telfjost_set_refusal_sheet", f: RefusalFn),
            ],
            starts: [
                export!("telfjost_none", f: StartFn),
                export!("telfjost_normal", f: StartFn),
                export!("telfjost_verbatim", f: StartFn),
                export!("telfjost_attr_value", f: StartFn),
                export!("telfjost_only_special_chars", f: StartFn),
                export!("telfjost_all", f: StartFn),
            ],
            contains: export!("telfjost_contains", f: ContainsFn),
        }
    }

    /// The functions that `exports.txt` lists.
    pub fn listed() -> Vec<&'static str> {
        include_str!("../exports.txt")
            .lines()
            .map(|line| line.split('#').next().unwrap_or("").trim())
            .filter(|name| !name.is_empty())
            .collect()
    }

    /// The names that the harness knows how to compare. The number of each of the first nine
    /// in a recorded call is its place here, counted from 1; the others are not recorded.
    pub const KNOWN: [&'static str; 28] = [
        "telfjost_block_attr_list",
        "telfjost_block_macro_attr_list",
        "telfjost_inline_macro_attr_list",
        "telfjost_link_macro_attr_list",
        "telfjost_is_block_attr_list",
        "telfjost_from_meta",
        "telfjost_from_meta_sheet",
        "telfjost_block_anchor",
        "telfjost_inline_anchor",
        "telfjost_insert",
        "telfjost_remove",
        "telfjost_prepend",
        "telfjost_insert_sheet",
        "telfjost_remove_sheet",
        "telfjost_prepend_sheet",
        "telfjost_set_refusal",
        "telfjost_set_refusal_sheet",
        "telfjost_none",
        "telfjost_normal",
        "telfjost_verbatim",
        "telfjost_attr_value",
        "telfjost_only_special_chars",
        "telfjost_all",
        "telfjost_contains",
        "telfjost_viewer_block_attr_list",
        "telfjost_viewer_block_macro_attr_list",
        "telfjost_viewer_inline_macro_attr_list",
        "telfjost_viewer_link_macro_attr_list",
    ];

    pub fn exports(&self) -> usize {
        fn there<T>(functions: &[Option<T>]) -> usize {
            functions.iter().flatten().count()
        }
        there(self.lists.as_flattened())
            + there(&[self.is_block_attr_list])
            + there(&self.anchors)
            + there(&self.from_meta)
            + there(self.moves.as_flattened())
            + there(&self.set_refusal)
            + there(&self.starts)
            + there(&[self.contains])
    }

    pub fn has_list(&self, reader: Reader, entry: Entry) -> bool {
        self.lists[reader as usize][entry as usize].is_some()
    }

    pub fn has_is_block_attr_list(&self) -> bool {
        self.is_block_attr_list.is_some()
    }

    pub fn has_anchor(&self, entry: AnchorEntry) -> bool {
        self.anchors[entry as usize].is_some()
    }

    pub fn has_from_meta(&self, mode: Mode) -> bool {
        self.from_meta[mode as usize].is_some()
    }

    pub fn has_moves(&self, mode: Mode) -> bool {
        self.moves[mode as usize].iter().any(Option::is_some)
    }

    /// `null` passes NULL for what has no elements.
    pub fn list(
        &self,
        reader: Reader,
        entry: Entry,
        line: Lent<'_>,
        rows: &mut [u32],
        null: bool,
    ) -> Option<List> {
        let f = self.lists[reader as usize][entry as usize]?;
        let Lent { kinds, text, pairs } = line;
        let rows_at = if null && rows.is_empty() { std::ptr::null_mut() } else { rows.as_mut_ptr() };
        // SAFETY: each pointer is that of a slice of the length given, or NULL with length 0.
        Some(unsafe {
            f(
                at(kinds, null),
                kinds.len(),
                at(text, null),
                text.len(),
                at(pairs, null),
                pairs.len(),
                rows_at,
                rows.len(),
            )
        })
    }

    pub fn is_block_attr_list(&self, line: Lent<'_>, null: bool) -> Option<Bool> {
        let f = self.is_block_attr_list?;
        let Lent { kinds, text, pairs } = line;
        // SAFETY: as above.
        Some(unsafe {
            f(at(kinds, null), kinds.len(), at(text, null), text.len(), at(pairs, null), pairs.len())
        })
    }

    /// The line is lent from memory that may be written to; the caller compares it afterwards.
    pub fn anchor(&self, entry: AnchorEntry, line: &mut LineBuf, null: bool) -> Option<Anchor> {
        let f = self.anchors[entry as usize]?;
        let LineBuf { kinds, text, pairs } = line;
        // SAFETY: as above.
        Some(unsafe {
            f(
                at_mut(kinds, null),
                kinds.len(),
                at_mut(text, null),
                text.len(),
                at_mut(pairs, null),
                pairs.len(),
            )
        })
    }

    pub fn from_meta(&self, mode: Mode, set: Set, present: bool, text: &[u8]) -> Option<SetAnswer> {
        let f = self.from_meta[mode as usize]?;
        // SAFETY: as above.
        Some(unsafe { f(set, present, at(text, true), text.len()) })
    }

    // The functions below take and give values alone, so that every call of them is sound.

    pub fn set_move(&self, mode: Mode, set: Set, step: Move, kind: u8) -> Option<SetAnswer> {
        self.moves[mode as usize][step as usize].map(|f| unsafe { f(set, kind) })
    }

    pub fn set_refusal(&self, mode: Mode, set: Set) -> Option<usize> {
        self.set_refusal[mode as usize].map(|f| unsafe { f(set) })
    }

    /// A starting set, by its place among `STARTS`.
    pub fn start(&self, which: usize) -> Option<Set> {
        self.starts[which].map(|f| unsafe { f() })
    }

    pub fn contains(&self, set: Set, kind: u8) -> Option<u8> {
        self.contains.map(|f| unsafe { f(set, kind) })
    }
}

fn at<T>(slice: &[T], null: bool) -> *const T {
    if null && slice.is_empty() { std::ptr::null() } else { slice.as_ptr() }
}

fn at_mut<T>(slice: &mut [T], null: bool) -> *const T {
    if null && slice.is_empty() { std::ptr::null() } else { slice.as_mut_ptr() }
}
