use std::fmt;

use crate::sys;
use crate::Refusal;

/// A substitution's kind, 1 to 7.
#[derive(Debug, Clone, Copy, PartialEq, Eq, Hash, PartialOrd, Ord)]
pub enum Sub {
    /// 1
    SpecialChars = 1,
    /// 2
    Quotes,
    /// 3
    Attributes,
    /// 4
    Replacements,
    /// 5
    Macros,
    /// 6
    PostReplacements,
    /// 7
    Callouts,
}

impl Sub {
    /// Every kind in order.
    pub const ALL: [Sub; 7] = [
        Sub::SpecialChars,
        Sub::Quotes,
        Sub::Attributes,
        Sub::Replacements,
        Sub::Macros,
        Sub::PostReplacements,
        Sub::Callouts,
    ];

    /// The name that a subs text calls it by.
    pub const fn name(self) -> &'static str {
        match self {
            Sub::SpecialChars => "specialchars",
            Sub::Quotes => "quotes",
            Sub::Attributes => "attributes",
            Sub::Replacements => "replacements",
            Sub::Macros => "macros",
            Sub::PostReplacements => "post_replacements",
            Sub::Callouts => "callouts",
        }
    }

    /// Its number in a set's places, 1 to 7.
    pub const fn number(self) -> u8 {
        self as u8
    }

    /// The kind of a number, if there is one.
    ///
    /// ```
    /// use telfjost::Sub;
    /// assert_eq!(Sub::of_number(7), Some(Sub::Callouts));
    /// assert_eq!((Sub::of_number(0), Sub::of_number(8)), (None, None));
    /// ```
    pub fn of_number(number: u8) -> Option<Sub> {
        Sub::ALL.get(usize::from(number).checked_sub(1)?).copied()
    }

    /// The kind that a subs text calls by this name. Names are exact; the groups `none`,
    /// `normal` and `verbatim` are no kinds.
    ///
    /// ```
    /// use telfjost::Sub;
    /// assert_eq!(Sub::of_name("post_replacements"), Some(Sub::PostReplacements));
    /// assert_eq!((Sub::of_name("Quotes"), Sub::of_name("normal")), (None, None));
    /// ```
    pub fn of_name(name: &str) -> Option<Sub> {
        Sub::ALL.into_iter().find(|kind| kind.name() == name)
    }

    /// Its flag in a set's flag byte.
    pub const fn flag(self) -> u8 {
        1 << (self as u8 - 1)
    }
}

impl fmt::Display for Sub {
    fn fmt(&self, f: &mut fmt::Formatter<'_>) -> fmt::Result {
        f.pad(self.name())
    }
}

/// A set of substitutions: seven places, and a flag byte. Any numbers will do; a set that is
/// not held (in sheet mode: not sound) is refused, and [`Set::refusal`] tells beforehand.
///
/// Port mode does what asciidork-parser 0.38.2 does; sheet mode is our addition, after the AsciiDoc
/// documentation as we remember it (docs/RULES.md, R40). `Set::default()` is the empty set; that of
/// the Rust's `Substitutions` is [`Set::normal`].
#[derive(Debug, Clone, Copy, PartialEq, Eq, Hash, Default)]
#[repr(C)]
pub struct Set {
    /// Kinds 1 to 7 in order, 0 for an empty place.
    pub places: [u8; 7],
    /// Kind k has flag 2 to the power k − 1.
    pub flags: u8,
}

impl Set {
    /// No substitution.
    pub const EMPTY: Set = Set { places: [0; 7], flags: 0 };

    /// Kinds 1 to 6, as for a paragraph.
    pub const NORMAL: Set = Set { places: [1, 2, 3, 4, 5, 6, 0], flags: 63 };

    /// No substitution: the Rust's `none()`, the same as [`Set::EMPTY`].
    ///
    /// ```
    /// use telfjost::Set;
    /// assert_eq!(Set::none(), Set::EMPTY);
    /// ```
    pub fn none() -> Set {
        sys::none()
    }

    /// Kinds 1 to 6, as for a paragraph: the Rust's `normal()`, the same as [`Set::NORMAL`].
    ///
    /// ```
    /// use telfjost::Set;
    /// assert_eq!(Set::normal(), Set::NORMAL);
    /// ```
    pub fn normal() -> Set {
        sys::normal()
    }

    /// Specialchars and callouts, as for a listing: the Rust's `verbatim()`. The text `verbatim`
    /// gives this set in sheet mode; in port mode it gives specialchars and replacements.
    ///
    /// ```
    /// use telfjost::Set;
    /// assert_eq!((Set::verbatim().places, Set::verbatim().flags), ([1, 7, 0, 0, 0, 0, 0], 65));
    /// assert_eq!(Set::none().from_meta_sheet(Some(b"verbatim")), Ok(Set::verbatim()));
    /// assert_ne!(Set::none().from_meta(Some(b"verbatim")), Ok(Set::verbatim()));
    /// ```
    pub fn verbatim() -> Set {
        sys::verbatim()
    }

    /// Kinds 1 to 4, under which the value of a named attribute is read (rows of tag 3).
    ///
    /// ```
    /// use telfjost::{Set, Sub};
    /// assert_eq!(Some(Set::attr_value()), Set::of(&Sub::ALL[..4]));
    /// ```
    pub fn attr_value() -> Set {
        sys::attr_value()
    }

    /// Specialchars alone.
    ///
    /// ```
    /// use telfjost::{Set, Sub};
    /// assert_eq!(Some(Set::only_special_chars()), Set::of(&[Sub::SpecialChars]));
    /// ```
    pub fn only_special_chars() -> Set {
        sys::only_special_chars()
    }

    /// All seven kinds in the order of their numbers.
    ///
    /// ```
    /// use telfjost::{Set, Sub};
    /// assert_eq!(Some(Set::all()), Set::of(&Sub::ALL));
    /// ```
    pub fn all() -> Set {
        sys::all()
    }

    /// The set that places these kinds in this order; None if one stands twice.
    ///
    /// ```
    /// use telfjost::{Set, Sub};
    /// assert_eq!(Set::of(&Sub::ALL[..6]), Some(Set::NORMAL));
    /// assert_eq!(Set::of(&[Sub::Quotes, Sub::Quotes]), None);
    /// ```
    pub fn of(kinds: &[Sub]) -> Option<Set> {
        let mut set = Set::EMPTY;
        for (at, kind) in kinds.iter().enumerate() {
            if set.flags & kind.flag() != 0 {
                return None;
            }
            set.places[at] = *kind as u8;
            set.flags |= kind.flag();
        }
        Some(set)
    }

    /// The kinds placed, in order.
    pub fn kinds(&self) -> impl Iterator<Item = Sub> + '_ {
        self.places.iter().filter_map(|kind| Sub::of_number(*kind))
    }

    /// Is the kind's flag set? In port mode a flag may be set without a place.
    ///
    /// ```
    /// use telfjost::{Set, Sub};
    ///
    /// let full = Set::normal().insert(Sub::Callouts)?;
    /// assert!(full.contains(Sub::Callouts));
    /// assert!(full.kinds().all(|kind| kind != Sub::Callouts));
    /// # Ok::<(), telfjost::Refusal>(())
    /// ```
    pub fn contains(self, kind: Sub) -> bool {
        sys::contains(self, kind)
    }

    /// The same as [`Set::contains`], under the name that it had first.
    pub fn has_flag(&self, kind: Sub) -> bool {
        self.contains(kind)
    }

    /// Why port mode would refuse the set: [`Refusal::SetNotHeld`] or nothing.
    ///
    /// ```
    /// use telfjost::{Refusal, Set};
    /// assert_eq!(Set::normal().refusal(), None);
    /// assert_eq!(Set { places: [1; 7], flags: 1 }.refusal(), Some(Refusal::SetNotHeld));
    /// ```
    pub fn refusal(self) -> Option<Refusal> {
        Refusal::of_number(sys::set_refusal(self))
    }

    /// Why sheet mode would refuse the set: [`Refusal::SetNotHeld`], else
    /// [`Refusal::SetNotSound`], or nothing.
    ///
    /// ```
    /// use telfjost::{Refusal, Set};
    /// let flag_alone = Set { flags: 1, ..Set::none() };
    /// assert_eq!((flag_alone.refusal(), flag_alone.refusal_sheet()), (None, Some(Refusal::SetNotSound)));
    /// ```
    pub fn refusal_sheet(self) -> Option<Refusal> {
        Refusal::of_number(sys::set_refusal_sheet(self))
    }

    /// The set with the kind put into the first empty place, in port mode: nothing changes if
    /// its flag is set; with six places filled the flag alone is set. Refusal 10.
    ///
    /// ```
    /// use telfjost::{Set, Sub};
    ///
    /// let listing = Set::verbatim().insert(Sub::Quotes)?;
    /// assert_eq!((listing.places, listing.flags), ([1, 7, 2, 0, 0, 0, 0], 67));
    /// # Ok::<(), telfjost::Refusal>(())
    /// ```
    pub fn insert(self, kind: Sub) -> Result<Set, Refusal> {
        sys::insert(self, kind).checked()
    }

    /// The set without the kind, in port mode: the gap is closed and the flag cleared, also that
    /// of a kind that stands in no place. Refusal 10.
    ///
    /// ```
    /// use telfjost::{Set, Sub};
    ///
    /// let set = Set::normal().remove(Sub::Attributes)?;
    /// assert_eq!((set.places, set.flags), ([1, 2, 4, 5, 6, 0, 0], 59));
    /// # Ok::<(), telfjost::Refusal>(())
    /// ```
    pub fn remove(self, kind: Sub) -> Result<Set, Refusal> {
        sys::remove(self, kind).checked()
    }

    /// The set with the kind in the first place, from wherever it stood, in port mode. Refusal
    /// 10.
    ///
    /// ```
    /// use telfjost::{Set, Sub};
    ///
    /// let set = Set::normal().prepend(Sub::Attributes)?;
    /// assert_eq!((set.places, set.flags), ([3, 1, 2, 4, 5, 6, 0], 63));
    /// # Ok::<(), telfjost::Refusal>(())
    /// ```
    pub fn prepend(self, kind: Sub) -> Result<Set, Refusal> {
        sys::prepend(self, kind).checked()
    }

    /// As [`Set::insert`], in sheet mode: the seventh place is filled too. Refusals 10 and 11.
    ///
    /// ```
    /// use telfjost::{Set, Sub};
    /// assert_eq!(Set::normal().insert_sheet(Sub::Callouts), Ok(Set::all()));
    /// ```
    pub fn insert_sheet(self, kind: Sub) -> Result<Set, Refusal> {
        sys::insert_sheet(self, kind).checked()
    }

    /// As [`Set::remove`], in sheet mode. Refusals 10 and 11.
    ///
    /// ```
    /// use telfjost::{Set, Sub};
    /// assert_eq!(Set::all().remove_sheet(Sub::Callouts), Ok(Set::normal()));
    /// ```
    pub fn remove_sheet(self, kind: Sub) -> Result<Set, Refusal> {
        sys::remove_sheet(self, kind).checked()
    }

    /// As [`Set::prepend`], in sheet mode. Refusals 10 and 11.
    ///
    /// ```
    /// use telfjost::{Set, Sub};
    /// let set = Set::verbatim().prepend_sheet(Sub::Callouts)?;
    /// assert_eq!((set.places, set.flags), ([7, 1, 0, 0, 0, 0, 0], 65));
    /// # Ok::<(), telfjost::Refusal>(())
    /// ```
    pub fn prepend_sheet(self, kind: Sub) -> Result<Set, Refusal> {
        sys::prepend_sheet(self, kind).checked()
    }

    /// The set as a subs attribute changes it, in port mode: as the Rust does it. None is no
    /// subs attribute. Refusals 9 and 10.
    ///
    /// ```
    /// use telfjost::{Set, Sub};
    ///
    /// let set = Set::NORMAL.from_meta(Some(b"-quotes,+macros"))?;
    /// assert!(!set.kinds().any(|kind| kind == Sub::Quotes));
    /// // with six filled the flag alone is set
    /// let full = Set::NORMAL.from_meta(Some(b"+callouts"))?;
    /// assert_eq!((full.places, full.flags), ([1, 2, 3, 4, 5, 6, 0], 127));
    /// assert_eq!(Set::NORMAL.from_meta(None), Ok(Set::NORMAL));
    /// # Ok::<(), telfjost::Refusal>(())
    /// ```
    pub fn from_meta(self, subs: Option<&[u8]>) -> Result<Set, Refusal> {
        sys::from_meta(self, subs).checked()
    }

    /// The same in sheet mode: spaces round a part do not count, `verbatim` is specialchars
    /// and callouts, and the seventh place is filled. Refusals 9, 10 and 11.
    ///
    /// ```
    /// use telfjost::Set;
    ///
    /// let set = Set::NORMAL.from_meta_sheet(Some(b"quotes, macros"))?;
    /// assert_eq!((set.places, set.flags), ([2, 5, 0, 0, 0, 0, 0], 18));
    /// # Ok::<(), telfjost::Refusal>(())
    /// ```
    pub fn from_meta_sheet(self, subs: Option<&[u8]>) -> Result<Set, Refusal> {
        sys::from_meta_sheet(self, subs).checked()
    }
}

impl sys::SetAnswer {
    /// The set, or the refusal.
    fn checked(self) -> Result<Set, Refusal> {
        Refusal::check(self.refusal).map(|()| self.set)
    }
}
