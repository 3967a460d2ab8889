/*
 * The time of one call is linear in its tokens: lines of one attribute that a reader could take
 * quadratic time for, at 64 to 4,096 tokens. Prints ns per token, and fails where 4,096 tokens
 * take over twice as long per token as 256.
 */
#include "telfjost.h"

#include <stdio.h>
#include <string.h>
#include <time.h>

enum { ROW = 6 };

static uint8_t kinds[4096], text[65535];
static uint32_t pairs[8192], rows[ROW * 4096];
static size_t tokens, bytes;

enum { ATTR_REF = 3, CLOSE_BRACKET = 10, COMMA = 13, DOUBLE_QUOTE = 19, DOTS = 20, EQUAL_SIGNS = 23,
       HASH = 27, PERCENT = 36, SINGLE_QUOTE = 43, WHITESPACE = 49, WORD = 50 };

static void put(int kind, const char *lexeme) {
    size_t length = strlen(lexeme);
    kinds[tokens] = (uint8_t)kind;
    pairs[2 * tokens] = (uint32_t)bytes;
    pairs[2 * tokens + 1] = (uint32_t)length;
    memcpy(text + bytes, lexeme, length);
    bytes += length;
    tokens += 1;
}

static const char *shapes[] = {
    "a name of many tokens", "shorthand symbols", "option groups", "role groups",
    "a name with AttrRef between", "AttrRef alone", "shorthand with AttrRef",
    "a positional cut near its end", "crossing quotes and commas", "blanks and AttrRef",
};

static void make(int shape, size_t want) {
    tokens = bytes = 0;
    switch (shape) {
    case 0: while (tokens + 4 < want) put(WORD, "ab"); put(EQUAL_SIGNS, "="); put(WORD, "v"); break;
    case 1: while (tokens + 3 < want) { put(DOTS, "."); put(WORD, "a"); } break;
    case 2: put(WORD, "opts"); put(EQUAL_SIGNS, "="); put(DOUBLE_QUOTE, "\"");
            while (tokens + 4 < want) { put(WORD, "a"); put(COMMA, ","); } put(DOUBLE_QUOTE, "\""); break;
    case 3: put(WORD, "role"); put(EQUAL_SIGNS, "="); put(SINGLE_QUOTE, "'");
            while (tokens + 4 < want) { put(WORD, "a"); put(WHITESPACE, " "); } put(SINGLE_QUOTE, "'"); break;
    case 4: while (tokens + 4 < want) { put(ATTR_REF, "{x}"); put(WORD, "a"); } put(EQUAL_SIGNS, "="); break;
    case 5: while (tokens + 2 < want) put(ATTR_REF, "{x}"); break;
    case 6: put(DOTS, "."); while (tokens + 3 < want) { put(ATTR_REF, "{x}"); put(PERCENT, "%"); } break;
    case 7: while (tokens + 4 < want) put(WORD, "ab"); put(HASH, "#"); put(WORD, "v"); break;
    case 8: while (tokens + 5 < want) { put(DOUBLE_QUOTE, "\""); put(COMMA, ","); put(SINGLE_QUOTE, "'"); put(COMMA, ","); } break;
    case 9: while (tokens + 4 < want) { put(WHITESPACE, " "); put(ATTR_REF, "{x}"); } break;
    }
    put(CLOSE_BRACKET, "]");
}

/* ns per token of the fastest of some batches */
static double measure(void) {
    double best = 1e99;
    for (int batch = 0; batch < 60; batch++) {
        struct timespec a, b;
        clock_gettime(CLOCK_MONOTONIC, &a);
        for (int i = 0; i < 20; i++) {
            telfjost_list answer = telfjost_block_attr_list(kinds, tokens, text, bytes, pairs, 2 * tokens, rows, ROW * tokens);
            if (answer.refusal != 0) return -1;
        }
        clock_gettime(CLOCK_MONOTONIC, &b);
        double ns = ((double)(b.tv_sec - a.tv_sec) * 1e9 + (double)(b.tv_nsec - a.tv_nsec)) / 20 / (double)tokens;
        if (ns < best) best = ns;
    }
    return best;
}

int main(void) {
    static const size_t sizes[] = {64, 256, 1024, 4096};
    int bad = 0;
    printf("%-28s %8s %8s %8s %8s\n", "ns per token", "64", "256", "1,024", "4,096");
    for (int shape = 0; shape < 10; shape++) {
        double ns[4];
        printf("%-28s", shapes[shape]);
        for (int i = 0; i < 4; i++) {
            make(shape, sizes[i]);
            ns[i] = measure();
            printf(" %8.1f", ns[i]);
            if (ns[i] < 0) bad = 1;
        }
        printf("\n");
        if (ns[3] > 2 * ns[1]) bad = 1;
    }
    return bad;
}
