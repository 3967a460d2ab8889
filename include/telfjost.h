/*
 * Telfjost: a proved reader of AsciiDoc attribute lines. docs/RULES.md tells the rules of reading.
 *
 * Link with target/staticlib/libtelfjost.a (`tools/library`), x86-64 Linux:
 *     cc -I include program.c target/staticlib/libtelfjost.a
 *
 * Every function returns on every input, allocates nothing, keeps no state between calls and
 * may be called from any number of threads at once. What C must see to:
 *   - a pointer points to at least as many elements as the length behind it says, aligned as
 *     its type asks; where the length is 0 the pointer is not read and may be NULL;
 *   - nothing else writes to what is lent while the call runs, and a buffer that a function
 *     writes to overlaps nothing else that is lent.
 *
 * A line of tokens is lent as three arrays:
 *   kinds  one number for each token, 0 to 50, in the order of the Rust's TokenKind
 *          (AttrRef 3, Backslash 5, CloseBracket 10, Comma 13, Digits 16, Discard 18,
 *          DoubleQuote 19, Dots 20, EqualSigns 23, Hash 27, OpenBracket 34, Percent 36,
 *          SingleQuote 43, Whitespace 49, Word 50);
 *   text   the bytes of the line;
 *   pairs  two numbers for each token, the byte at which its text starts in `text` and its
 *          length in bytes; sorted, not overlapping, gaps allowed.
 *
 * A refusal is 0 where a call is answered, else the first of these that applies:
 *   1  no tokens
 *   2  over 4,096 tokens; for the small viewer over 256
 *   3  the text is over 65,535 bytes
 *   4  not two numbers in `pairs` for each kind
 *   5  some kind is over 50
 *   6  a pair starts before the previous one ends, or ends past the text
 *   7  `rows` holds under 6 numbers for each token
 *   8  there is no closing bracket, as the entry asks for one
 *   9  the text of a subs attribute is over 65,535 bytes
 *   10 the set is not held
 *   11 sheet mode: the set is held but not sound
 *   12 the line of an anchor, one that is not "no anchor", runs out, does not close as it should, or
 *      its id has no bytes
 */
#ifndef TELFJOST_H
#define TELFJOST_H

#include <stdbool.h>
#include <stddef.h>
#include <stdint.h>

#ifdef __cplusplus
extern "C" {
#endif

/* Yes or no. */
typedef struct {
    size_t refusal; /* 0, or 1 to 6; then `yes` is 0 */
    size_t yes;     /* 1 for yes, 0 for no */
} telfjost_bool;

/*
 * Is the line a block attribute list? The line begins with its opening bracket. Yes exactly
 * when the first token is OpenBracket, the last is CloseBracket, the one before the last is
 * not Backslash and the second is not OpenBracket; so `[]` is one, and a single token is none.
 */
telfjost_bool telfjost_is_block_attr_list(const uint8_t *kinds, size_t kinds_len,
                                          const uint8_t *text, size_t text_len,
                                          const uint32_t *pairs, size_t pairs_len);

/* What a list was read as. */
typedef struct {
    size_t refusal;  /* 0, or 1 to 8; then the other three are 0 and `rows` was not written to */
    size_t rows;     /* rows written, six numbers each, from the start of `rows` */
    size_t consumed; /* tokens consumed, the closing bracket among them */
    size_t rejoined; /* commas taken back */
} telfjost_list;

/*
 * The four readings. The line begins after the opening bracket. `rows` must hold six numbers
 * for each token (refusal 7 otherwise), which is always enough; the numbers behind the rows
 * written keep what they had, and on a refusal all of them do.
 *
 * A row is six numbers: a tag, then two runs, then a quote mark. A run is the place of its first
 * token and how many tokens it has, first kept token to last; AttrRef tokens inside it are skipped
 * by whoever reads it; an empty run is 0, 0. Unused numbers are 0. (In an anchor's id and reference
 * text AttrRef tokens are kept: see telfjost_anchor.)
 *
 * The quote mark says which quotes the reader took off the run: 0 none, 1 double, 2 single. The
 * tokens beside a run do not tell it: `""` and `k=""` have the mark 1 and the run 0, 0, and AttrRef
 * tokens may stand between a run and its quotes.
 *
 *   tag 1  a positional attribute, empty; mark 0
 *   tag 2  a positional attribute: its run; the run's mark, 0 where shorthand was cut off (a.b)
 *   tag 3  a named attribute: name, value; the value is read under attr_value; the value's mark
 *   tag 4  the id: its run; the run's mark for id="a", 0 for #a
 *   tag 5  a role: its run; mark 0, also for role="a b"
 *   tag 6  an option: its run; mark 0, also for opts="a,b"
 *   tag 7  a diagnostic: place, number, 0, 0; mark 0
 *   tag 8  a named attribute called subs or cols: name, value; the value is read under none; the
 *          value's mark
 *
 * Rows stand in reading order, repeated names are all there. Diagnostics, with which reading
 * goes on: 1 Invalid id attribute; 2 Invalid attr list; 3 Invalid empty id attribute (place 0,
 * the list's own); 4 More than one id attribute.
 *
 * A line whose first token is CloseBracket gives no rows, 1 consumed, by every entry.
 *
 * Commas taken back: a second quote of a kind takes back commas that stand between it and its first,
 * as docs/RULES.md, R15, says; each counts once, and no longer divides. Of a line read as a list they
 * make, with the commas that divide, exactly the commas counted: those before the first CloseBracket
 * and before the last token. In `name=O'Brien,edition=3,second=O'Neill]` 2 are taken back, and the
 * edition is part of the name: so an editor can warn the author (docs/TAKEN-BACK.md). It is 0 where the
 * first token is CloseBracket, and for a link read as text.
 */

/* A block attribute line. Shorthand (.role #id %option) is read. The last token closes; any
 * other kind there is refusal 8. */
telfjost_list telfjost_block_attr_list(const uint8_t *kinds, size_t kinds_len,
                                       const uint8_t *text, size_t text_len,
                                       const uint32_t *pairs, size_t pairs_len,
                                       uint32_t *rows, size_t rows_len);

/* The list of a block macro: as above, without shorthand. */
telfjost_list telfjost_block_macro_attr_list(const uint8_t *kinds, size_t kinds_len,
                                             const uint8_t *text, size_t text_len,
                                             const uint32_t *pairs, size_t pairs_len,
                                             uint32_t *rows, size_t rows_len);

/* The list of an inline macro, without shorthand. The token after the last dividing comma
 * closes if it is CloseBracket; else (or from the first token, if no comma divides) the next
 * CloseBracket whose preceding token is not Backslash; none is refusal 8. The line may go on
 * behind it: see `consumed`. */
telfjost_list telfjost_inline_macro_attr_list(const uint8_t *kinds, size_t kinds_len,
                                              const uint8_t *text, size_t text_len,
                                              const uint32_t *pairs, size_t pairs_len,
                                              uint32_t *rows, size_t rows_len);

/* What stands in the brackets of a link macro: a list, read as an inline macro's, or text,
 * which is one row of tag 2, its quotes taken off and its blanks kept. */
telfjost_list telfjost_link_macro_attr_list(const uint8_t *kinds, size_t kinds_len,
                                            const uint8_t *text, size_t text_len,
                                            const uint32_t *pairs, size_t pairs_len,
                                            uint32_t *rows, size_t rows_len);

/*
 * The small viewer's: the four readings for lines of at most 256 tokens, in less memory. A line of
 * more is refused with 2, whatever else is wrong with it. On any other line
 * telfjost_viewer_block_attr_list answers, refuses and writes exactly as telfjost_block_attr_list
 * does, and so the other three. A call takes at most 1,528 bytes of stack, as measured, where one
 * above takes up to 9,192 (docs/VIEWER.md).
 */
telfjost_list telfjost_viewer_block_attr_list(const uint8_t *kinds, size_t kinds_len,
                                              const uint8_t *text, size_t text_len,
                                              const uint32_t *pairs, size_t pairs_len,
                                              uint32_t *rows, size_t rows_len);
telfjost_list telfjost_viewer_block_macro_attr_list(const uint8_t *kinds, size_t kinds_len,
                                                    const uint8_t *text, size_t text_len,
                                                    const uint32_t *pairs, size_t pairs_len,
                                                    uint32_t *rows, size_t rows_len);
telfjost_list telfjost_viewer_inline_macro_attr_list(const uint8_t *kinds, size_t kinds_len,
                                                     const uint8_t *text, size_t text_len,
                                                     const uint32_t *pairs, size_t pairs_len,
                                                     uint32_t *rows, size_t rows_len);
telfjost_list telfjost_viewer_link_macro_attr_list(const uint8_t *kinds, size_t kinds_len,
                                                   const uint8_t *text, size_t text_len,
                                                   const uint32_t *pairs, size_t pairs_len,
                                                   uint32_t *rows, size_t rows_len);

/* What an anchor, [[id,text]], was read as. */
typedef struct {
    size_t refusal;                /* 0; or 1 to 6 or 12, and then all others are 0 */
    size_t anchor;                 /* 1 for an anchor; 0 for none, and then all others are 0 */
    size_t id_place, id_count;     /* the id: a run, AttrRef tokens kept */
    size_t text_place, text_count; /* the reference text: a run, AttrRef tokens kept; 0, 0: absent */
    size_t consumed;               /* tokens consumed */
    size_t discard;                /* 1: the reference text's first token counts as Discard; else 0 */
} telfjost_anchor;

/*
 * The two readings of an anchor. The line begins after the two opening brackets. The checks of a
 * line, 1 to 6, come first. Then a line whose first token is SingleQuote, DoubleQuote, Whitespace,
 * CloseBracket, Digits or Comma is "no anchor", which is an answer and no refusal: nothing is
 * consumed. Of any other line the id runs to the first Comma or CloseBracket.
 *
 * Where that is a CloseBracket there is no reference text, and up to two tokens more are consumed:
 * the CloseBracket and the token behind it, of whatever kind, if there is one. By both functions
 * `a]]` and `a]b` have 3 consumed, and `a]` has 2.
 *
 * Where it is a Comma the reference text begins behind it. The two functions differ in where it ends;
 * both consume the two CloseBrackets that close the anchor. A reference text of no tokens is absent.
 *
 * Refusal 12: there is neither Comma nor CloseBracket, or behind the Comma the anchor does not close
 * as its function says, or all tokens of the id together have no bytes.
 *
 * Whoever reads these two runs does not skip AttrRef tokens, as he would in a row's: the id of
 * `a{x}]]` is `a{x}`, and the bytes of an AttrRef token count for it.
 *
 * `discard` is 1 where the first token of the reference text is Whitespace, or is lent as Discard. That
 * one token is a leading blank and does not belong to what is shown, while its place still belongs to
 * the run; `kinds` is not altered. What is shown has text_count - discard tokens, from the place
 * text_place + discard on.
 */

/* The anchor of a whole line, as it stands above a block. Behind a Comma the last two tokens must be
 * CloseBrackets; the reference text is what stands before them, other CloseBrackets too, and all of the
 * line is consumed. Without a Comma the line may go on behind the anchor: of the four tokens `a` `]`
 * `b` `b` three are consumed. */
telfjost_anchor telfjost_block_anchor(const uint8_t *kinds, size_t kinds_len,
                                      const uint8_t *text, size_t text_len,
                                      const uint32_t *pairs, size_t pairs_len);

/* An anchor in a line that may go on behind it: see `consumed`. The reference text runs to the first
 * CloseBracket behind the Comma, which must be followed by another. A Backslash escapes no bracket:
 * `a,b\]]` closes, with the Backslash in the text, and `a,b]\]]` is refused with 12, since a Backslash
 * follows its first CloseBracket. */
telfjost_anchor telfjost_inline_anchor(const uint8_t *kinds, size_t kinds_len,
                                       const uint8_t *text, size_t text_len,
                                       const uint32_t *pairs, size_t pairs_len);

/*
 * A substitution set: seven places, in the order in which the substitutions are applied, and a flag
 * byte. A place holds a kind, or 0 for none; kind k has the flag 2 to the power k - 1. The kinds:
 *
 *   1 specialchars   2 quotes   3 attributes   4 replacements   5 macros
 *   6 post_replacements   7 callouts
 *
 * A held set has places of 0 to 7 only, is packed from the front, has no kind twice, a flag for
 * every kind placed, bit 7 clear, and at most one flag without a place. A sound set is held and has
 * no flag without a place. Port mode takes every held set, sheet mode every sound one; each mode
 * gives back only sets that it takes.
 *
 * Two modes: port mode does what asciidork-parser 0.38.2 does; sheet mode is our addition, after the
 * AsciiDoc documentation as we remember it (docs/RULES.md, R40). docs/DIFFERENCES.md tells where they
 * differ.
 */
typedef struct {
    uint8_t places[7];
    uint8_t flags;
} telfjost_set;

/* The sets that the Rust begins with. Each is sound. */
telfjost_set telfjost_none(void);               /* {{0, 0, 0, 0, 0, 0, 0}, 0} */
telfjost_set telfjost_normal(void);             /* {{1, 2, 3, 4, 5, 6, 0}, 63}, as for a paragraph */
telfjost_set telfjost_verbatim(void);           /* {{1, 7, 0, 0, 0, 0, 0}, 65}, as for a listing */
telfjost_set telfjost_attr_value(void);         /* {{1, 2, 3, 4, 0, 0, 0}, 15} */
telfjost_set telfjost_only_special_chars(void); /* {{1, 0, 0, 0, 0, 0, 0}, 1} */
telfjost_set telfjost_all(void);                /* {{1, 2, 3, 4, 5, 6, 7}, 127} */

/* Is the flag of the kind set? Looks at the flags alone and refuses no set; in port mode a kind may
 * be flagged and stand in no place. False for a number that names no kind (0, or over 7). */
bool telfjost_contains(telfjost_set set, uint8_t kind);

/* Why a mode would refuse the set: port mode 0 or 10, sheet mode 0, 10 or 11. */
size_t telfjost_set_refusal(telfjost_set set);
size_t telfjost_set_refusal_sheet(telfjost_set set);

typedef struct {
    size_t refusal;   /* 0, or 9 to 11; then `set` is the set given */
    telfjost_set set; /* what the call makes of the set given */
} telfjost_set_answer;

/*
 * The moves. Each refuses a set that its mode does not take: 10, in sheet mode then 11. A number
 * that names no kind (0, or over 7) is passed over: refusal 0 and the set given.
 *
 *   insert   does nothing if the kind's flag is set; else sets it and puts the kind into the first
 *            empty place. In port mode the first empty place among the first six: with six filled
 *            the flag alone is set, and the kind stands in no place. In sheet mode among all seven.
 *   remove   takes the kind out of its place, closes the gap and clears the flag, also the flag of
 *            a kind that stands in no place.
 *   prepend  puts the kind into the first place, from wherever it stood, and sets its flag.
 */
telfjost_set_answer telfjost_insert(telfjost_set set, uint8_t kind);
telfjost_set_answer telfjost_remove(telfjost_set set, uint8_t kind);
telfjost_set_answer telfjost_prepend(telfjost_set set, uint8_t kind);
telfjost_set_answer telfjost_insert_sheet(telfjost_set set, uint8_t kind);
telfjost_set_answer telfjost_remove_sheet(telfjost_set set, uint8_t kind);
telfjost_set_answer telfjost_prepend_sheet(telfjost_set set, uint8_t kind);

/*
 * What the text of a subs attribute makes of a set. `present` is false where there is no subs
 * attribute: then the text is not read and the set given is the answer. A text of 0 bytes is not
 * that, and gives the empty set. The set given is checked in either case.
 */

/* Port mode. There the name `verbatim` is specialchars and replacements, which is not the set that
 * telfjost_verbatim() gives. Refusals 9 and 10. */
telfjost_set_answer telfjost_from_meta(telfjost_set set, bool present, const uint8_t *text,
                                       size_t text_len);

/* Sheet mode: spaces at the ends of a part do not count, `verbatim` is specialchars and
 * callouts, and the seventh place may be filled. Refusals 9, 10 and 11. */
telfjost_set_answer telfjost_from_meta_sheet(telfjost_set set, bool present, const uint8_t *text,
                                             size_t text_len);

#ifdef __cplusplus
}
#endif

#endif
