/*
 * A laboratory links from a summary to its block. Above the block stands the anchor
 *     [[glucose,Fasting glucose]]
 * and this program prints its id and its reference text; then those of an anchor inside a line, of one
 * whose id has a reference to a document attribute, and what it is told of two other lines. A line is
 * lent without the two opening brackets.
 */
#include <stdio.h>
#include <string.h>

#include "telfjost.h"

enum { ATTR_REF = 3, CLOSE_BRACKET = 10, COMMA = 13, DIGITS = 16, WHITESPACE = 49, WORD = 50, MOST = 8 };

struct token {
    uint8_t kind;
    const char *word;
};

/* The line that is lent: its kinds, its text and its pairs, made of tokens. */
static uint8_t kinds[MOST], text[64];
static uint32_t pairs[2 * MOST];
static size_t tokens, bytes;

static void make_line(const struct token *given, size_t count)
{
    tokens = count;
    bytes = 0;
    for (size_t place = 0; place < count; place++) {
        size_t length = strlen(given[place].word);
        memcpy(text + bytes, given[place].word, length);
        kinds[place] = given[place].kind;
        pairs[2 * place] = (uint32_t)bytes;
        pairs[2 * place + 1] = (uint32_t)length;
        bytes += length;
    }
}

/* An anchor's run is a place and a count of tokens; AttrRef tokens inside it are kept. */
static void print_run(size_t first, size_t count)
{
    for (size_t place = first; place < first + count; place++)
        printf("%.*s", (int)pairs[2 * place + 1], (const char *)text + pairs[2 * place]);
}

static void say(telfjost_anchor answer)
{
    printf("[[%.*s\n", (int)bytes, (const char *)text);
    if (answer.refusal != 0) {
        printf("  refused: %zu\n", answer.refusal);
    } else if (answer.anchor == 0) {
        printf("  no anchor\n");
    } else {
        printf("  id \"");
        print_run(answer.id_place, answer.id_count);
        printf("\"\n");
        if (answer.text_count != 0) {
            /* a first token that counts as Discard is not shown */
            printf("  reference text \"");
            print_run(answer.text_place + answer.discard, answer.text_count - answer.discard);
            printf("\"\n");
        }
        printf("  %zu of %zu tokens consumed\n", answer.consumed, tokens);
    }
}

static void say_of_block(const struct token *given, size_t count)
{
    make_line(given, count);
    say(telfjost_block_anchor(kinds, tokens, text, bytes, pairs, 2 * tokens));
}

static void say_of_inline(const struct token *given, size_t count)
{
    make_line(given, count);
    say(telfjost_inline_anchor(kinds, tokens, text, bytes, pairs, 2 * tokens));
}

int main(void)
{
    const struct token close = {CLOSE_BRACKET, "]"}, comma = {COMMA, ","}, blank = {WHITESPACE, " "};
    const struct token glucose = {WORD, "glucose"};

    const struct token block[] = {glucose, comma, {WORD, "Fasting"}, blank, glucose, close, close};
    say_of_block(block, 7);
    say_of_block(block, 6); /* one bracket is missing: refusal 12 */

    const struct token in_line[] = {{WORD, "lung"}, comma, blank, {WORD, "Lung"}, close, close, blank, {WORD, "seen"}};
    say_of_inline(in_line, 8);

    const struct token with_attr_ref[] = {glucose, {ATTR_REF, "{edition}"}, close, close};
    say_of_block(with_attr_ref, 4);

    const struct token range[] = {{DIGITS, "4"}, comma, {DIGITS, "6"}, close, close};
    say_of_inline(range, 5);
    return 0;
}
