//! The generated lines of anchors; each goes to both entries.

use crate::cases::{
    BYTES, EachLine, Every, Lengths, Make, Piece, every_line, faults, in_ascii, long_line, piece,
    random_lines,
};
use crate::lines::{
    A, BACK, CLOSE, COMMA, DOUBLE, EMAILS, HASH, LineBuf, OPEN, REF, SINGLE, SPACE, Tok, anchor_line,
    any_kinds_line, email_line, random_line, spoil_utf8,
};
use crate::model::MOST_TOKENS;
use crate::rng::Rng;
use crate::token::TokenKind::*;

/// The six kinds that are no anchor's first, AttrRef and Word with bytes and without, Discard, and
/// kinds that another rule of anchors could name.
const TOKENS: [Tok; 14] = [
    A,
    (Word, ""),
    REF,
    (AttrRef, ""),
    (Discard, " "),
    BACK,
    HASH,
    OPEN,
    SINGLE,
    DOUBLE,
    SPACE,
    CLOSE,
    (Digits, "1"),
    COMMA,
];

/// Every line up to a length: any, and those with an id and a reference text that closes.
pub fn exhaustive(more: usize) -> Vec<Piece> {
    let each: EachLine = |worker, _, line, _| worker.anchors(line.lent());
    let any = Every {
        class: "anchors, every line",
        alphabet: TOKENS.to_vec(),
        before: vec![],
        after: vec![],
        longest: 5 + more,
        entries: &[],
    };
    let text = |class, alphabet: &[Tok]| Every {
        class,
        alphabet: alphabet.to_vec(),
        before: vec![A, COMMA],
        after: vec![CLOSE, CLOSE],
        longest: 5 + more,
        entries: &[],
    };
    let texts = text("anchors, every reference text", &TOKENS);
    let emails = text("anchors, every reference text of email addresses", &EMAILS);
    [any, texts, emails].into_iter().flat_map(|every| every_line(every, each)).collect()
}

/// Random lines and damaged ones.
pub fn random(seed: u64, share: usize) -> Vec<Piece> {
    let mut pieces = Vec::new();
    let mut add = |class, seed: u64, lines: u32, lengths: Lengths, make: Make| {
        pieces.push(random_lines(class, seed, lines, lengths, make, |worker, line, _, _| {
            worker.anchors(line.lent())
        }));
    };
    for part in 0..share as u64 {
        let seed = seed.wrapping_add(16 + (part << 8));
        add("anchors, random lines up to 12 tokens", seed, 80_000, (1, 12), anchor_line);
        add("anchors, random lines up to 60 tokens", seed + 1, 20_000, (1, 60), anchor_line);
        add("anchors, random lines up to 600 tokens", seed + 2, 400, (1, 600), anchor_line);
        add("anchors, random lines up to 4,096 tokens", seed + 3, 30, (1, MOST_TOKENS), anchor_line);
        let limit = (MOST_TOKENS - 2, MOST_TOKENS + 2);
        add("anchors, random lines of 4,094 to 4,098 tokens", seed + 4, 20, limit, anchor_line);
        add("anchors, lines as of a list", seed + 5, 10_000, (1, 12), random_line);
        add("anchors, lines over all 51 kinds", seed + 6, 10_000, (1, 12), any_kinds_line);
        add("anchors, random email addresses", seed + 7, 10_000, (1, 20), email_line);
        add("anchors, random email addresses", seed + 8, 50, (1, 600), email_line);
    }
    for part in 0..share as u64 {
        let seed = seed.wrapping_add(25 + (part << 8));
        pieces.push(no_utf8(seed));
        pieces.push(damaged(seed + 1));
    }
    pieces
}

fn no_utf8(seed: u64) -> Piece {
    piece("anchors, lexemes that are no UTF-8", move |worker| {
        let mut rng = Rng::new(seed);
        let mut line = LineBuf::default();
        for _ in 0..5_000 {
            let len = 1 + rng.below(14);
            anchor_line(&mut line, &mut rng, len);
            let for_rust = spoil_utf8(&mut line, &mut rng);
            worker.anchors_for(line.lent(), &for_rust)?;
        }
        Ok(())
    })
}

fn damaged(seed: u64) -> Piece {
    piece("anchors, damaged lines, one to three faults", move |worker| {
        let mut rng = Rng::new(seed);
        let mut line = LineBuf::default();
        for _ in 0..15_000 {
            let len = if rng.one_in(400) { MOST_TOKENS } else { 1 + rng.below(10) };
            anchor_line(&mut line, &mut rng, len);
            faults(&mut line, &mut rng);
            worker.anchors_for(line.lent(), &in_ascii(&line.text))?;
        }
        Ok(())
    })
}

/// Lines at the limits of tokens and of bytes: no anchor, an id, an id and a reference text.
fn limits() -> Vec<Piece> {
    let mixes: [&'static [Tok]; 8] =
        [&[A], &[COMMA], &[SPACE], &[REF], &[CLOSE], &[A, COMMA], &[(Word, "")], &[CLOSE, BACK]];
    mixes
        .into_iter()
        .map(|mix| {
            piece("anchors, lines at the limits", move |worker| {
                for before in [&[][..], &[A], &[A, COMMA]] {
                    for len in MOST_TOKENS - 1..=MOST_TOKENS + 2 {
                        for bytes in BYTES {
                            let line = long_line(before, mix, &[CLOSE, CLOSE], len, bytes);
                            worker.anchors(line.lent())?;
                        }
                    }
                }
                Ok(())
            })
        })
        .collect()
}

/// Ids of as many bytes as a narrower count would take for few or none: of one token, and of tokens of
/// one byte each.
fn long_ids() -> Piece {
    piece("anchors, ids of many bytes", |worker| {
        let endings: [&[Tok]; 2] = [&[CLOSE, CLOSE], &[COMMA, A, CLOSE, CLOSE]];
        for bytes in [255, 256, 257, 511, 512, 513, 1024, 4090, 32_767, 32_768, 65_280, 65_530] {
            for ending in endings {
                let mut ids = vec![LineBuf::default()];
                ids[0].push(Word, &vec![b'a'; bytes]);
                if bytes <= 4090 {
                    ids.push(LineBuf::default());
                    (0..bytes).for_each(|_| ids[1].push(Word, b"a"));
                }
                for mut line in ids {
                    ending.iter().for_each(|(kind, lexeme)| line.push(*kind, lexeme.as_bytes()));
                    worker.anchors(line.lent())?;
                }
            }
        }
        Ok(())
    })
}

/// What the gate runs.
pub fn gate(seed: u64) -> Vec<Piece> {
    let mut pieces = exhaustive(0);
    pieces.extend(random(seed, 20));
    pieces.extend(limits());
    pieces.push(long_ids());
    pieces
}
