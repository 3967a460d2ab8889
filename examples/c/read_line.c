/*
 * Reads the attribute line
 *     [summary#lung,edition="8, draft",width=1450]
 * of a report sheet and prints its rows in words, each text but a role's and an option's in the
 * quotes in which the author had it. A line is lent without its opening bracket.
 */
#include <stdio.h>
#include <string.h>

#include "telfjost.h"

enum { TOKENS = 17, ROW = 6, ATTR_REF = 3 };

static const char *const words[TOKENS] = {"summary", "#", "lung", ",", "edition", "=", "\"", "8",   ",",
                                          " ",       "draft", "\"", ",", "width",   "=", "1450", "]"};
static const uint8_t kinds[TOKENS] = {50, 27, 50, 13, 50, 23, 19, 16, 13, 49, 50, 19, 13, 50, 23, 16, 10};

/* The line's text and pairs, made of the words above. */
static uint8_t text[64];
static uint32_t pairs[2 * TOKENS];

/* A run is a place and a count of tokens; AttrRef tokens inside are skipped by whoever reads it. */
static void print_run(const uint32_t *run)
{
    for (uint32_t place = run[0]; place < run[0] + run[1]; place++)
        if (kinds[place] != ATTR_REF)
            printf("%.*s", (int)pairs[2 * place + 1], (const char *)text + pairs[2 * place]);
}

/* The last number of a row: which quotes were taken off its run, 0 none, 1 double, 2 single. */
static void print_quoted(const uint32_t *run, uint32_t mark)
{
    static const char *const quotes[] = {"", "\"", "'"};
    printf("%s", quotes[mark]);
    print_run(run);
    printf("%s", quotes[mark]);
}

static void print_row(const uint32_t *row)
{
    static const char *const tags[] = {"", "positional, empty", "positional ", "named ", "id ", "role ", "option "};
    static const char *const says[] = {"", "Invalid id attribute", "Invalid attr list",
                                       "Invalid empty id attribute", "More than one id attribute"};
    if (row[0] == 7) {
        printf("%s, at token %u", says[row[2]], (unsigned)row[1]);
    } else {
        bool named = row[0] == 3 || row[0] == 8;
        printf("%s", named ? tags[3] : tags[row[0]]);
        if (named) {
            print_run(row + 1);
            printf(" = ");
            print_quoted(row + 3, row[ROW - 1]);
        } else {
            print_quoted(row + 1, row[ROW - 1]);
        }
    }
    printf("\n");
}

int main(void)
{
    size_t bytes = 0;
    for (size_t place = 0; place < TOKENS; place++) {
        size_t length = strlen(words[place]);
        memcpy(text + bytes, words[place], length);
        pairs[2 * place] = (uint32_t)bytes;
        pairs[2 * place + 1] = (uint32_t)length;
        bytes += length;
    }

    uint32_t rows[ROW * TOKENS]; /* six numbers for each token are always enough */
    telfjost_list answer =
        telfjost_block_attr_list(kinds, TOKENS, text, bytes, pairs, 2 * TOKENS, rows, ROW * TOKENS);
    if (answer.refusal != 0) {
        printf("refused: %zu\n", answer.refusal);
        return 1;
    }
    for (size_t row = 0; row < answer.rows; row++)
        print_row(rows + ROW * row);
    printf("%zu tokens consumed\n", answer.consumed);
    printf("commas taken back: %zu\n", answer.rejoined);

    /* the same line without its closing bracket: refusal 8, and rows stays as it was */
    answer = telfjost_block_attr_list(kinds, TOKENS - 1, text, bytes, pairs, 2 * (TOKENS - 1), rows, ROW * TOKENS);
    printf("without its bracket: refused, %zu; commas taken back: %zu\n", answer.refusal, answer.rejoined);
    return 0;
}
