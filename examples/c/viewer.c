/*
 * The label strip of the slide viewer reads
 *     [slide,stain=HE]
 * by a function that takes at most 256 tokens, and says of a longer line that it is too long. A line
 * is lent without its opening bracket.
 */
#include <stdio.h>

#include "telfjost.h"

enum { COMMA = 13, CLOSE_BRACKET = 10, EQUAL_SIGNS = 23, WORD = 50, ROW = 6, MOST = 256 };

/* room for the rows of any line that the viewer reads, and for one token more */
static uint32_t rows[ROW * (MOST + 1)];

static void say(telfjost_list answer)
{
    if (answer.refusal == 2)
        printf("too long for the label strip\n");
    else if (answer.refusal != 0)
        printf("refused: %zu\n", answer.refusal);
    else
        printf("%zu rows, %zu tokens consumed\n", answer.rows, answer.consumed);
}

/* so many tokens, each but the last a comma of one byte */
static telfjost_list read_commas(size_t tokens)
{
    static uint8_t kinds[MOST + 1], text[MOST + 1];
    static uint32_t pairs[2 * (MOST + 1)];
    for (size_t place = 0; place < tokens; place++) {
        kinds[place] = place + 1 == tokens ? CLOSE_BRACKET : COMMA;
        text[place] = place + 1 == tokens ? ']' : ',';
        pairs[2 * place] = (uint32_t)place;
        pairs[2 * place + 1] = 1;
    }
    return telfjost_viewer_block_attr_list(kinds, tokens, text, tokens, pairs, 2 * tokens, rows, ROW * tokens);
}

int main(void)
{
    static const char text[] = "slide,stain=HE]";
    static const uint8_t kinds[] = {WORD, COMMA, WORD, EQUAL_SIGNS, WORD, CLOSE_BRACKET};
    static const uint32_t pairs[] = {0, 5, 5, 1, 6, 5, 11, 1, 12, 2, 14, 1};
    say(telfjost_viewer_block_attr_list(kinds, 6, (const uint8_t *)text, 15, pairs, 12, rows, ROW * 6));
    say(read_commas(MOST));
    say(read_commas(MOST + 1));
    return 0;
}
