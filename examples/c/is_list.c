/*
 * Is this line of a report sheet a block attribute list? The line is [edition=3], five tokens,
 * opening bracket first; and then the same line with a backslash before its closing bracket.
 */
#include <stdio.h>

#include "telfjost.h"

enum { BACKSLASH = 5, CLOSE_BRACKET = 10, DIGITS = 16, EQUAL_SIGNS = 23, OPEN_BRACKET = 34, WORD = 50 };

static void ask(const char *text, size_t bytes, const uint8_t *kinds, size_t tokens, const uint32_t *pairs)
{
    telfjost_bool answer =
        telfjost_is_block_attr_list(kinds, tokens, (const uint8_t *)text, bytes, pairs, 2 * tokens);
    if (answer.refusal != 0)
        printf("%.*s  refused: %zu\n", (int)bytes, text, answer.refusal);
    else
        printf("%.*s  %s\n", (int)bytes, text, answer.yes ? "yes" : "no");
}

int main(void)
{
    const uint8_t kinds[] = {OPEN_BRACKET, WORD, EQUAL_SIGNS, DIGITS, CLOSE_BRACKET};
    const uint32_t pairs[] = {0, 1, 1, 7, 8, 1, 9, 1, 10, 1}; /* offset, length, offset, length, .. */
    ask("[edition=3]", 11, kinds, 5, pairs);

    const uint8_t escaped[] = {OPEN_BRACKET, WORD, BACKSLASH, CLOSE_BRACKET};
    const uint32_t escaped_pairs[] = {0, 1, 1, 7, 8, 1, 9, 1};
    ask("[edition\\]", 10, escaped, 4, escaped_pairs);

    ask("", 0, NULL, 0, NULL); /* no tokens: refusal 1 */
    return 0;
}
