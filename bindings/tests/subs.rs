//! Substitutions in both modes: texts, moves, starting sets, flags.

use telfjost::{Refusal, Set, Sub};

#[test]
fn the_bench() {
    let set = |places: [u8; 7], flags| Ok(Set { places, flags });
    let normal = Set::NORMAL;
    assert_eq!(normal.from_meta(Some(b"+callouts")), set([1, 2, 3, 4, 5, 6, 0], 127));
    assert_eq!(normal.from_meta_sheet(Some(b"+callouts")), set([1, 2, 3, 4, 5, 6, 7], 127));
    assert_eq!(normal.from_meta(Some(b"verbatim")), set([1, 4, 0, 0, 0, 0, 0], 9));
    assert_eq!(normal.from_meta_sheet(Some(b"verbatim")), set([1, 7, 0, 0, 0, 0, 0], 65));
    assert_eq!(normal.from_meta(Some(b"quotes, macros")), set([2, 0, 0, 0, 0, 0, 0], 2));
    assert_eq!(normal.from_meta_sheet(Some(b"quotes, macros")), set([2, 5, 0, 0, 0, 0, 0], 18));
}

#[test]
fn no_attribute_is_not_an_empty_text() {
    assert_eq!(Set::NORMAL.from_meta(None), Ok(Set::NORMAL));
    assert_eq!(Set::NORMAL.from_meta(Some(b"")), Ok(Set::EMPTY));
    assert_eq!(Set::NORMAL.from_meta_sheet(None), Ok(Set::NORMAL));
    assert_eq!(Set::NORMAL.from_meta_sheet(Some(b"")), Ok(Set::EMPTY));
}

#[test]
fn refusals() {
    let long = vec![b'a'; 65_536];
    let twice = Set { places: [1, 1, 0, 0, 0, 0, 0], flags: 1 };
    let flag_alone = Set { places: [0; 7], flags: 1 };
    assert_eq!(twice.from_meta(Some(&long)), Err(Refusal::SubsTextTooLong));
    assert_eq!(twice.from_meta(None), Err(Refusal::SetNotHeld));
    assert_eq!(twice.from_meta_sheet(None), Err(Refusal::SetNotHeld));
    assert_eq!(flag_alone.from_meta(None), Ok(flag_alone));
    assert_eq!(flag_alone.from_meta_sheet(None), Err(Refusal::SetNotSound));
    assert_eq!(Set::NORMAL.from_meta(Some(&long[..65_535])), Ok(Set::EMPTY));
}

#[test]
fn names_are_those_of_a_subs_text() {
    for kind in Sub::ALL {
        let alone = Set::of(&[kind]).unwrap();
        assert_eq!(Set::EMPTY.from_meta(Some(kind.name().as_bytes())), Ok(alone));
        assert_eq!(alone.kinds().collect::<Vec<_>>(), [kind]);
        assert!(Sub::ALL.into_iter().all(|other| alone.contains(other) == (other == kind)));
        assert!(Sub::ALL.into_iter().all(|other| alone.has_flag(other) == alone.contains(other)));
        assert_eq!(Sub::of_name(kind.name()), Some(kind));
        assert_eq!(Sub::of_number(kind.number()), Some(kind));
    }
    assert!((8..=255).chain([0]).all(|number| Sub::of_number(number).is_none()));
    let order = [Sub::Callouts, Sub::Macros, Sub::SpecialChars];
    assert_eq!(Set::of(&order).unwrap().kinds().collect::<Vec<_>>(), order);
}

/// Every move of both modes, with the text that names it.
type Moves = [(fn(Set, Sub) -> Result<Set, Refusal>, fn(&str) -> String); 3];
const PORT: Moves = [
    (Set::insert, |name| format!("+{name}")),
    (Set::remove, |name| format!("-{name}")),
    (Set::prepend, |name| format!("{name}+")),
];
const SHEET: Moves = [
    (Set::insert_sheet, |name| format!("+{name}")),
    (Set::remove_sheet, |name| format!("-{name}")),
    (Set::prepend_sheet, |name| format!("{name}+")),
];

/// Sets of both kinds that port mode takes: sound ones, and ones with a flag alone.
fn some_sets() -> Vec<Set> {
    let mut sets = vec![Set::none(), Set::normal(), Set::verbatim(), Set::attr_value(), Set::all()];
    sets.push(Set::of(&[Sub::Callouts, Sub::Macros, Sub::SpecialChars]).unwrap());
    sets.push(Set { flags: 127, ..Set::normal() });
    sets.push(Set { flags: 1, ..Set::none() });
    sets
}

#[test]
fn a_move_is_what_its_text_does() {
    for set in some_sets() {
        for kind in Sub::ALL {
            for (step, text) in PORT {
                assert_eq!(step(set, kind), set.from_meta(Some(text(kind.name()).as_bytes())));
            }
            for (step, text) in SHEET {
                assert_eq!(step(set, kind), set.from_meta_sheet(Some(text(kind.name()).as_bytes())));
            }
        }
    }
}

#[test]
fn moves() {
    let set = |places: [u8; 7], flags| Ok(Set { places, flags });
    assert_eq!(Set::normal().insert(Sub::Callouts), set([1, 2, 3, 4, 5, 6, 0], 127));
    assert_eq!(Set::normal().insert_sheet(Sub::Callouts), set([1, 2, 3, 4, 5, 6, 7], 127));
    let flagged = Set { flags: 127, ..Set::normal() };
    assert_eq!(flagged.remove(Sub::Callouts), Ok(Set::normal()));
    assert_eq!(flagged.prepend(Sub::Callouts), set([7, 1, 2, 3, 4, 5, 6], 127));
    assert_eq!(flagged.insert(Sub::Callouts), Ok(flagged));
    assert_eq!(Set::all().remove_sheet(Sub::SpecialChars), set([2, 3, 4, 5, 6, 7, 0], 126));
    assert_eq!(Set::all().prepend_sheet(Sub::Callouts), set([7, 1, 2, 3, 4, 5, 6], 127));
}

#[test]
fn a_set_is_refused_by_every_move_as_its_refusal_says() {
    let twice = Set { places: [1, 1, 0, 0, 0, 0, 0], flags: 1 };
    let gap = Set { places: [0, 1, 0, 0, 0, 0, 0], flags: 1 };
    let no_flag = Set { places: [1, 0, 0, 0, 0, 0, 0], flags: 0 };
    let no_kind = Set { places: [8, 0, 0, 0, 0, 0, 0], flags: 128 };
    let refused = [twice, gap, no_flag, no_kind];
    assert!(refused.iter().all(|set| set.refusal() == Some(Refusal::SetNotHeld)));
    for set in some_sets().into_iter().chain(refused) {
        for kind in Sub::ALL {
            assert!(PORT.iter().all(|(step, _)| step(set, kind).err() == set.refusal()));
            assert!(SHEET.iter().all(|(step, _)| step(set, kind).err() == set.refusal_sheet()));
        }
        assert_eq!(set.from_meta(None).err(), set.refusal());
        assert_eq!(set.from_meta_sheet(None).err(), set.refusal_sheet());
    }
}

#[test]
fn starting_sets() {
    let set = |places: [u8; 7], flags| Set { places, flags };
    assert_eq!(Set::none(), set([0; 7], 0));
    assert_eq!(Set::normal(), set([1, 2, 3, 4, 5, 6, 0], 63));
    assert_eq!(Set::verbatim(), set([1, 7, 0, 0, 0, 0, 0], 65));
    assert_eq!(Set::attr_value(), set([1, 2, 3, 4, 0, 0, 0], 15));
    assert_eq!(Set::only_special_chars(), set([1, 0, 0, 0, 0, 0, 0], 1));
    assert_eq!(Set::all(), set([1, 2, 3, 4, 5, 6, 7], 127));
    let all = [
        Set::none(),
        Set::normal(),
        Set::verbatim(),
        Set::attr_value(),
        Set::only_special_chars(),
        Set::all(),
    ];
    assert!(all.iter().all(|set| set.refusal_sheet().is_none()));
}
