/*
 * What a subs attribute makes of the substitutions of a paragraph, in port mode (as the Rust
 * does it) and in sheet mode (our addition; see telfjost.h).
 */
#include <stdio.h>
#include <string.h>

#include "telfjost.h"

static void print_answer(const char *mode, telfjost_set_answer answer)
{
    if (answer.refusal != 0) {
        printf("  %s refused: %zu\n", mode, answer.refusal);
        return;
    }
    printf("  %s", mode);
    for (int place = 0; place < 7 && answer.set.places[place] != 0; place++)
        printf(" %d", answer.set.places[place]);
    printf(", flags %d\n", answer.set.flags);
}

int main(void)
{
    const telfjost_set normal = telfjost_normal();
    const char *const texts[] = {"quotes, macros", "verbatim", "+callouts", "-quotes"};
    for (size_t i = 0; i < sizeof texts / sizeof *texts; i++) {
        const uint8_t *text = (const uint8_t *)texts[i];
        size_t bytes = strlen(texts[i]);
        printf("subs=\"%s\"\n", texts[i]);
        print_answer("port ", telfjost_from_meta(normal, true, text, bytes));
        print_answer("sheet", telfjost_from_meta_sheet(normal, true, text, bytes));
    }

    /* a kind placed twice: the set is not held */
    const telfjost_set twice = {{2, 2, 0, 0, 0, 0, 0}, 2};
    printf("quotes placed twice, no subs attribute\n");
    print_answer("port ", telfjost_from_meta(twice, false, NULL, 0));
    return 0;
}
