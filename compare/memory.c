/*
 * Random and damaged calls of every exported function, for a memory checker. Each buffer is
 * allocated with exactly the size that the call names, so that one byte too far is seen; the row
 * buffer is not set beforehand in half of the calls, so that reading it is seen too. Looks also at
 * what every answer must keep: the refusal is of the table, 1 is given exactly where there is no
 * token and 2 where the reader's limit is passed, the viewer answers as the main reader does within
 * its limit, a refused call leaves the row buffer and the set, no number behind the rows changes,
 * every row has a tag, runs in the line and a quote mark that its tag may have, no more commas are
 * taken back than are counted, an anchor's runs stand beside the Comma and the brackets that end
 * them, and a line that is lent to an anchor's entry is left as it was.
 *
 *   memory CALLS SEED
 */
#include "telfjost.h"

#include <stdio.h>
#include <stdlib.h>
#include <string.h>

enum { ROW = 6, CLOSE_BRACKET = 10, COMMA = 13, OPEN_BRACKET = 34, WORD = 50, VIEWER_TOKENS = 256 };

static uint64_t state;

static uint32_t below(uint32_t n) {
    state ^= state << 13;
    state ^= state >> 7;
    state ^= state << 17;
    return (uint32_t)((state >> 16) % n);
}

static void wrong(const char *what) {
    printf("memory: %s\n", what);
    exit(1);
}

/* exactly so many bytes; none is sometimes NULL */
static void *exactly(size_t bytes) {
    if (bytes == 0 && below(2))
        return NULL;
    void *p = malloc(bytes);
    if (p == NULL && bytes != 0)
        wrong("no memory");
    return p;
}

static const uint8_t significant[] = {3, 5, 10, 13, 13, 13, 19, 20, 23, 27, 34, 36, 43, 49, 50, 50};

struct line {
    uint8_t *kinds, *text;
    uint32_t *pairs;
    size_t tokens, bytes, numbers;
};

static size_t some_length(void) {
    switch (below(64)) {
    case 0: return 4096;
    case 1: return 4097;
    case 2: return below(4096);
    case 3: return 0;
    case 4: return VIEWER_TOKENS - 2 + below(5);
    default: return 1 + below(40);
    }
}

/* a line of random tokens that the checks take, but for its counts */
static struct line some_line(void) {
    struct line l;
    static const char texts[] = "=.#%',\"] roleidopts";
    l.tokens = some_length();
    l.numbers = 2 * l.tokens;
    l.kinds = exactly(l.tokens);
    l.pairs = exactly(l.numbers * sizeof *l.pairs);
    size_t at = 0;
    for (size_t i = 0; i < l.tokens; i++) {
        l.kinds[i] = below(8) ? significant[below(sizeof significant)] : (uint8_t)below(51);
        at += below(16) == 0;
        l.pairs[2 * i] = (uint32_t)at;
        l.pairs[2 * i + 1] = below(8) ? 1 : below(5);
        at += l.pairs[2 * i + 1];
    }
    if (l.tokens != 0 && below(4))
        l.kinds[l.tokens - 1] = CLOSE_BRACKET;
    if (l.tokens != 0 && below(2))
        l.kinds[0] = OPEN_BRACKET;
    l.bytes = at;
    l.text = exactly(at);
    for (size_t i = 0; i < at; i++)
        l.text[i] = (uint8_t)texts[below(sizeof texts - 1)];
    return l;
}

static void free_line(struct line *l) {
    free(l->pairs);
    free(l->text);
    free(l->kinds);
}

static bool same_bytes(const void *a, const void *b, size_t bytes) {
    return bytes == 0 || memcmp(a, b, bytes) == 0;
}

static void *copied(const void *from, size_t bytes) {
    void *p = exactly(bytes);
    if (bytes != 0)
        memcpy(p, from, bytes);
    return p;
}

static struct line copy_of(const struct line *l) {
    struct line copy = *l;
    copy.kinds = copied(l->kinds, l->tokens);
    copy.text = copied(l->text, l->bytes);
    copy.pairs = copied(l->pairs, l->numbers * sizeof *l->pairs);
    return copy;
}

/* one thing made wrong */
static void damage(struct line *l) {
    switch (below(7)) {
    case 0: /* another number of pairs */
        free(l->pairs);
        l->numbers = below(2) ? l->numbers + 1 + below(3) : l->numbers - (l->numbers != 0);
        l->pairs = exactly(l->numbers * sizeof *l->pairs);
        for (size_t i = 0; i < l->numbers; i++)
            l->pairs[i] = (uint32_t)i;
        break;
    case 1: /* a kind over 50 */
        if (l->tokens != 0)
            l->kinds[below((uint32_t)l->tokens)] = (uint8_t)(51 + below(205));
        break;
    case 2: /* an offset or a length near 2 to the power 32 */
        if (l->numbers != 0)
            l->pairs[below((uint32_t)l->numbers)] = 0xffffffffu - below(4);
        break;
    case 3: /* a pair elsewhere */
        if (l->numbers != 0)
            l->pairs[below((uint32_t)l->numbers)] = below(70000);
        break;
    case 4: /* the text too short */
        free(l->text);
        l->bytes -= l->bytes != 0;
        l->text = exactly(l->bytes);
        if (l->bytes != 0)
            memset(l->text, '=', l->bytes);
        break;
    case 5: /* the text too long */
        free(l->text);
        l->bytes = 65535 + below(2);
        l->text = exactly(l->bytes);
        memset(l->text, '=', l->bytes);
        break;
    default: /* no pair in order */
        for (size_t i = 0; i < l->numbers; i++)
            l->pairs[i] = below(300);
        break;
    }
}

typedef telfjost_list reading(const uint8_t *, size_t, const uint8_t *, size_t, const uint32_t *,
                              size_t, uint32_t *, size_t);

/* the main reader's first, then the viewer's */
static reading *const readings[2][4] = {
    {
        telfjost_block_attr_list,
        telfjost_block_macro_attr_list,
        telfjost_inline_macro_attr_list,
        telfjost_link_macro_attr_list,
    },
    {
        telfjost_viewer_block_attr_list,
        telfjost_viewer_block_macro_attr_list,
        telfjost_viewer_inline_macro_attr_list,
        telfjost_viewer_link_macro_attr_list,
    },
};

static unsigned long long read_calls, refused_calls;

static void look_at_rows(const struct line *l, const uint32_t *rows, telfjost_list a) {
    if (a.rows > l->tokens || a.consumed == 0 || a.consumed > l->tokens)
        wrong("more rows or tokens than the line has");
    size_t commas = 0;
    for (size_t i = 0; i + 1 < l->tokens && l->kinds[i] != CLOSE_BRACKET; i++)
        commas += l->kinds[i] == COMMA;
    if (a.rejoined > commas)
        wrong("more commas taken back than are counted");
    for (size_t r = 0; r < a.rows; r++) {
        const uint32_t *row = rows + ROW * r;
        if (row[0] < 1 || row[0] > 8)
            wrong("no such tag");
        for (int k = 1; k <= 3; k += 2)
            if (row[0] != 7 && (size_t)row[k] + row[k + 1] > a.consumed)
                wrong("a run outside what is consumed");
        bool marked = (row[0] >= 2 && row[0] <= 4) || row[0] == 8;
        if (row[ROW - 1] > (marked ? 2 : 0))
            wrong("no such quote mark");
    }
}

/* the viewer answered a for a line within its limit: so does the main reader, with the same rows */
static void as_the_main_reader(const struct line *l, int entry, const uint32_t *rows, size_t room,
                               telfjost_list a) {
    uint32_t *again = exactly(room * sizeof *again);
    telfjost_list b = readings[0][entry](l->kinds, l->tokens, l->text, l->bytes, l->pairs,
                                         l->numbers, again, room);
    if (memcmp(&a, &b, sizeof a) != 0)
        wrong("the viewer and the main reader answer differently");
    if (a.rows != 0 && memcmp(rows, again, ROW * a.rows * sizeof *rows) != 0)
        wrong("the viewer and the main reader write other rows");
    free(again);
}

static void one_list(void) {
    struct line l = some_line();
    if (below(3) == 0)
        damage(&l);
    size_t room = ROW * l.tokens;
    if (below(8) == 0)
        room = below(2) ? room + below(9) : below((uint32_t)room + 1);
    uint32_t *rows = exactly(room * sizeof *rows), *before = NULL;
    if (below(2)) {
        before = exactly(room * sizeof *rows);
        for (size_t i = 0; i < room; i++)
            rows[i] = before[i] = below(0xffffffffu);
    }
    bool viewer = below(2);
    int entry = (int)below(4);
    telfjost_list a =
        readings[viewer][entry](l.kinds, l.tokens, l.text, l.bytes, l.pairs, l.numbers, rows, room);
    if (a.refusal > 8)
        wrong("no such refusal");
    if ((a.refusal == 1) != (l.tokens == 0))
        wrong("1 for a line of tokens, or another number for none");
    if ((a.refusal == 2) != (l.tokens > (viewer ? VIEWER_TOKENS : 4096)))
        wrong("2 for another limit");
    if (viewer && l.tokens <= VIEWER_TOKENS)
        as_the_main_reader(&l, entry, rows, room, a);
    if (a.refusal != 0 && (a.rows != 0 || a.consumed != 0 || a.rejoined != 0))
        wrong("a refusal with rows, tokens or commas");
    size_t written = ROW * a.rows;
    if (before != NULL && room > written &&
        memcmp(rows + written, before + written, (room - written) * sizeof *rows) != 0)
        wrong("a number behind the rows changed");
    if (a.refusal == 0)
        look_at_rows(&l, rows, a);
    *(a.refusal == 0 ? &read_calls : &refused_calls) += 1;
    telfjost_bool is = telfjost_is_block_attr_list(l.kinds, l.tokens, l.text, l.bytes, l.pairs,
                                                   l.numbers);
    if (is.refusal > 6 || is.yes > 1 || (is.refusal != 0 && is.yes != 0))
        wrong("no such answer of is_block_attr_list");
    *(is.refusal == 0 ? &read_calls : &refused_calls) += 1;
    free(before);
    free(rows);
    free_line(&l);
}

/* the kinds of a line made those of an anchor, more often than not */
static void like_an_anchor(struct line *l) {
    if (l->tokens == 0)
        return;
    if (below(4))
        l->kinds[0] = WORD;
    if (l->tokens > 3 && below(4))
        l->kinds[1 + below(3)] = COMMA;
    for (size_t i = l->tokens - 1; i > 0 && i + 2 >= l->tokens; i--)
        if (below(8))
            l->kinds[i] = CLOSE_BRACKET;
    if (l->tokens > 2 && below(3) == 0) {
        size_t at = below((uint32_t)l->tokens - 1);
        l->kinds[at] = l->kinds[at + 1] = CLOSE_BRACKET;
    }
}

static void look_at_anchor(const struct line *l, bool whole, telfjost_anchor a) {
    const uint8_t *kinds = l->kinds;
    if (a.anchor > 1 || a.discard > 1)
        wrong("no such answer of an anchor");
    if (a.refusal != 0 || a.anchor == 0) {
        if (a.anchor != 0 || a.id_place != 0 || a.id_count != 0 || a.text_place != 0 ||
            a.text_count != 0 || a.consumed != 0 || a.discard != 0)
            wrong("a refusal or no anchor with another number");
        return;
    }
    if (a.id_place != 0 || a.id_count == 0 || a.id_count >= a.consumed || a.consumed > l->tokens)
        wrong("an id outside what is consumed, or more tokens than the line has");
    bool comma = kinds[a.id_count] == COMMA;
    if (!comma && kinds[a.id_count] != CLOSE_BRACKET)
        wrong("an id that does not run to a Comma or CloseBracket");
    if (!comma && (a.text_count != 0 || a.consumed > a.id_count + 2))
        wrong("a text without a Comma, or over two tokens dropped");
    if (a.text_count == 0 && (a.text_place != 0 || a.discard != 0))
        wrong("an absent text with a place or a Discard");
    if (a.text_count != 0 && a.text_place != a.id_count + 1)
        wrong("a text that is not behind its Comma");
    if (comma && (a.id_count + 1 + a.text_count + 2 != a.consumed ||
                  kinds[a.consumed - 1] != CLOSE_BRACKET || kinds[a.consumed - 2] != CLOSE_BRACKET))
        wrong("a text that two brackets do not close");
    if (comma && whole && a.consumed != l->tokens)
        wrong("a whole line that is not all consumed");
}

typedef telfjost_anchor anchor(const uint8_t *, size_t, const uint8_t *, size_t, const uint32_t *,
                               size_t);

static anchor *const anchors[2] = {telfjost_inline_anchor, telfjost_block_anchor};

static void one_anchor(void) {
    struct line l = some_line();
    like_an_anchor(&l);
    if (below(3) == 0)
        damage(&l);
    struct line before = copy_of(&l);
    bool whole = below(2);
    telfjost_anchor a = anchors[whole](l.kinds, l.tokens, l.text, l.bytes, l.pairs, l.numbers);
    if (a.refusal > 6 && a.refusal != 12)
        wrong("no such refusal of an anchor");
    if ((a.refusal == 1) != (l.tokens == 0) || (a.refusal == 2) != (l.tokens > 4096))
        wrong("1 or 2 of an anchor for another limit");
    if (!same_bytes(l.kinds, before.kinds, l.tokens) || !same_bytes(l.text, before.text, l.bytes) ||
        !same_bytes(l.pairs, before.pairs, l.numbers * sizeof *l.pairs))
        wrong("a line that is lent for an anchor is altered");
    look_at_anchor(&l, whole, a);
    *(a.refusal == 0 ? &read_calls : &refused_calls) += 1;
    free_line(&before);
    free_line(&l);
}

static const char *const parts[] = {
    "quotes", "+quotes", "quotes+", "-quotes", "normal", "-normal", "verbatim", "verbatim+",
    "none", "attributes", " macros ", "callouts+", "q", "", "a", "specialcharacters", "nonesuch",
    "post_replacements", "+-", "replacements+",
};

static void one_subs(void) {
    char some[400] = "";
    for (uint32_t i = below(12); i > 0; i--) {
        strcat(some, parts[below(sizeof parts / sizeof *parts)]);
        strcat(some, ",");
    }
    size_t bytes = strlen(some);
    if (below(200) == 0)
        bytes = 65535 + below(2);
    uint8_t *text = exactly(bytes);
    for (size_t i = 0; i < bytes; i++)
        text[i] = i < strlen(some) ? (uint8_t)some[i] : below(2) ? ',' : 'a';
    telfjost_set set;
    for (int i = 0; i < 7; i++)
        set.places[i] = below(4) ? (uint8_t)(i < 6 ? i + 1 : 0) : (uint8_t)below(9);
    set.flags = below(3) ? 63 : (uint8_t)below(256);
    bool present = below(8) != 0;
    bool sheet = below(2);
    telfjost_set_answer a = sheet ? telfjost_from_meta_sheet(set, present, text, bytes)
                                  : telfjost_from_meta(set, present, text, bytes);
    if (a.refusal != 0 && (a.refusal < 9 || a.refusal > 11))
        wrong("no such refusal of from_meta");
    if (a.refusal != 0 && memcmp(&a.set, &set, sizeof set) != 0)
        wrong("a refused call changed the set");
    *(a.refusal == 0 ? &read_calls : &refused_calls) += 1;
    free(text);
}

typedef telfjost_set_answer move(telfjost_set, uint8_t);

/* port mode first */
static move *const moves[2][3] = {
    {telfjost_insert, telfjost_remove, telfjost_prepend},
    {telfjost_insert_sheet, telfjost_remove_sheet, telfjost_prepend_sheet},
};

static telfjost_set (*const starts[])(void) = {
    telfjost_none, telfjost_normal, telfjost_verbatim,
    telfjost_attr_value, telfjost_only_special_chars, telfjost_all,
};

/* moves from a starting set on, and from a damaged one */
static void one_walk(void) {
    telfjost_set set = starts[below(sizeof starts / sizeof *starts)]();
    if (telfjost_set_refusal_sheet(set) != 0)
        wrong("a starting set is not sound");
    if (below(3) == 0)
        set.places[below(7)] = (uint8_t)below(256);
    if (below(4) == 0)
        set.flags = (uint8_t)below(256);
    for (int i = 0; i < 8; i++) {
        uint8_t kind = below(8) ? (uint8_t)(1 + below(7)) : (uint8_t)below(256);
        bool sheet = below(2);
        int step = (int)below(3);
        telfjost_set_answer a = moves[sheet][step](set, kind);
        if (a.refusal != (sheet ? telfjost_set_refusal_sheet : telfjost_set_refusal)(set))
            wrong("a move refuses another set than the test of sets does");
        if ((a.refusal != 0 || kind < 1 || kind > 7) && memcmp(&a.set, &set, sizeof set) != 0)
            wrong("a move changed a set that it must leave");
        if (a.refusal == 0 && telfjost_set_refusal(a.set) != 0)
            wrong("a move gave a set that is not held");
        if (a.refusal == 0 && kind >= 1 && kind <= 7 && telfjost_contains(a.set, kind) != (step != 1))
            wrong("a move did not set or clear the flag");
        *(a.refusal == 0 ? &read_calls : &refused_calls) += 1;
        set = a.set;
    }
}

int main(int argc, char **argv) {
    unsigned long long calls = argc > 1 ? strtoull(argv[1], NULL, 10) : 100000;
    state = argc > 2 ? strtoull(argv[2], NULL, 10) : 1;
    state = state * 2 + 1;
    while (read_calls + refused_calls < calls) {
        one_list();
        one_anchor();
        one_subs();
        one_walk();
    }
    printf("memory: %llu calls answered, %llu refused, all as they must\n", read_calls,
           refused_calls);
    return 0;
}
