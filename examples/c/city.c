/*
 * A small city: its budget script is run once, and then a slider is moved a few times.
 * Reads the script's table, in hex, from standard input:
 *
 *     compare/target/release/compare assemble examples/budget.imp | city
 *
 * The script's variables are residents, tax, income, and whether the city is content.
 */
#include "simazokwa.h"

#include <stdio.h>

#define VARIABLES 4
#define ROOM 1024

/* The table's bytes from hex digits; how many there are. */
static size_t read_table(uint8_t *table, size_t most)
{
    size_t length = 0;
    unsigned byte;
    while (length < most && scanf("%2x", &byte) == 1)
        table[length++] = (uint8_t)byte;
    return length;
}

static void show(const char *what, const int64_t *answer)
{
    if (answer[SIMAZOKWA_NUMBER] != SIMAZOKWA_ACCEPTED) {
        printf("%-18s refused with %lld\n", what, (long long)answer[SIMAZOKWA_NUMBER]);
        return;
    }
    printf("%-18s residents %lld tax %lld income %lld content %lld; of %lld steps %lld walked, %lld reused, %lld fresh\n", what,
           (long long)answer[SIMAZOKWA_VALUES], (long long)answer[SIMAZOKWA_VALUES + 1],
           (long long)answer[SIMAZOKWA_VALUES + 2], (long long)answer[SIMAZOKWA_VALUES + 3],
           (long long)answer[SIMAZOKWA_STEPS], (long long)answer[SIMAZOKWA_WALKED],
           (long long)answer[SIMAZOKWA_REUSED], (long long)answer[SIMAZOKWA_FRESH]);
}

int main(void)
{
    static const struct {
        const char *what;
        int64_t changes[VARIABLES];
    } moves[] = {
        {"tax up by 1", {0, 1, 0, 0}},
        {"a resident comes", {1, 0, 0, 0}},
        {"two leave", {-2, 0, 0, 0}},
        {"a billion come", {1000000000, 0, 0, 0}},
        {"nothing moves", {0, 0, 0, 0}},
    };
    static const int64_t inputs[VARIABLES] = {5, 10, 0, 0};
    uint8_t table[SIMAZOKWA_MOST_TABLE];
    int64_t answer[SIMAZOKWA_ANSWER_WORDS];
    int64_t first[ROOM], second[ROOM];
    int64_t *now = first, *next = second; /* the two records: a patch reads one and writes the other */

    size_t length = read_table(table, sizeof table);
    if (simazokwa_run(table, length, inputs, VARIABLES, 100, answer, now, ROOM) != SIMAZOKWA_ACCEPTED) {
        show("run", answer);
        return 1;
    }
    show("run", answer);
    for (size_t i = 0; i < sizeof moves / sizeof *moves; i++) {
        if (simazokwa_patch(table, length, now, ROOM, moves[i].changes, VARIABLES, answer, next, ROOM) == SIMAZOKWA_ACCEPTED) {
            int64_t *spare = now; /* a refused patch leaves the old record in use */
            now = next;
            next = spare;
        }
        show(moves[i].what, answer);
    }
    return 0;
}
