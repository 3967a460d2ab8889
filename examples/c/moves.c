/*
 * Substitutions put into, taken out of and moved to the front of a set, one kind at a time, in
 * port mode (as the Rust does it) and in sheet mode (our addition; see telfjost.h).
 */
#include <stdio.h>

#include "telfjost.h"

enum { QUOTES = 2, ATTRIBUTES = 3, CALLOUTS = 7 };

static void print_set(telfjost_set set)
{
    for (int place = 0; place < 7 && set.places[place] != 0; place++)
        printf(" %d", set.places[place]);
    printf(", flags %d\n", set.flags);
}

static void print_answer(const char *what, telfjost_set_answer answer)
{
    printf("%s", what);
    if (answer.refusal != 0)
        printf(" refused: %zu; the set is as it was:", answer.refusal);
    print_set(answer.set);
}

int main(void)
{
    const telfjost_set paragraph = telfjost_normal();
    const telfjost_set listing = telfjost_verbatim();
    printf("paragraph");
    print_set(paragraph);
    printf("listing");
    print_set(listing);

    print_answer("listing, quotes inserted", telfjost_insert(listing, QUOTES));
    print_answer("listing, callouts removed", telfjost_remove(listing, CALLOUTS));
    print_answer("paragraph, attributes first", telfjost_prepend(paragraph, ATTRIBUTES));

    /* six places are filled: in port mode the flag alone is set, and sheet mode refuses that set */
    telfjost_set_answer port = telfjost_insert(paragraph, CALLOUTS);
    print_answer("paragraph, callouts inserted, port mode ", port);
    print_answer("paragraph, callouts inserted, sheet mode", telfjost_insert_sheet(paragraph, CALLOUTS));
    printf("the first of the two contains callouts: %s\n",
           telfjost_contains(port.set, CALLOUTS) ? "yes" : "no");
    printf("refusals of the first: port mode %zu, sheet mode %zu\n", telfjost_set_refusal(port.set),
           telfjost_set_refusal_sheet(port.set));
    print_answer("quotes removed from it, sheet mode", telfjost_remove_sheet(port.set, QUOTES));

    /* a number that names no kind is passed over */
    print_answer("listing, kind 8 inserted", telfjost_insert(listing, 8));
    return 0;
}
