/*
 * A test: two rules joined, by the header's names: the words of row 0, the text in which a name stands, and what is left
 * in the words of both texts. The exit status is 0 if they are as the header says.
 */
#include <stdio.h>
#include <string.h>

#include "tergyosul.h"

/* What every word is before a call. */
#define BEFORE 7u

struct joining {
    const char *first, *second;
    uint32_t row[TERGYOSUL_ROW]; /* row 0 */
    size_t records, others;      /* how many records are left of each text */
};

static const struct joining joinings[] = {
    /* the second's trigger that is there already is dropped */
    {"when http trigger when timer(\"Close\") fires if sun is down",
     "when timer(\"Close\") fires when timer(\"Open\") fires if sun is down",
     {0, 0, 0, 0, 3, 1, 0, 1, 1, 2, 0, 1}, 13, 16},
    /* one that the first has twice stands once, and without conditions their word is 0 */
    {"when every 1h when http trigger when every 60m", "when controller starts",
     {0, 0, 0, 0, 3, 0, 0, 1, 1, 2, 0, 0}, 9, 3},
    /* four are left */
    {"when http trigger when controller starts", "when every 1s when http trigger when every 2s",
     {0, 0, 0, 0, 4, 0, 0, 1, 1, 2, 2, 0}, 6, 9},
    /* the first is refused: the second is not read */
    {"when @", "when @", {10, 1, 6, 0, 0, 0, 1, 0, 0, 0, 0, 0}, 1, 0},
    /* the second is refused */
    {"when http trigger", "when\nhttp", {20, 2, 5, 0, 0, 0, 2, 0, 0, 0, 0, 0}, 3, 2},
    /* the conditions differ in their order, and only one has any */
    {"when http trigger if sun is up and sun is down", "when every 1s if sun is down and sun is up",
     {51, 0, 0, 0, 0, 0, 0, 0, 0, 0, 0, 0}, 11, 11},
    {"when http trigger", "when http trigger if sun is up", {51, 0, 0, 0, 0, 0, 0, 0, 0, 0, 0, 0}, 3, 7},
    /* five triggers are left */
    {"when http trigger when every 1s when every 2s", "when every 3s when every 4s",
     {52, 0, 0, 0, 0, 0, 0, 0, 0, 0, 0, 0}, 9, 6}
};
#define COUNT (sizeof joinings / sizeof joinings[0])

static const uint8_t sheet[] = "primary,0";
static uint32_t words[TERGYOSUL_TOKEN_WORDS];
static uint32_t others[TERGYOSUL_TOKEN_WORDS];
static uint32_t answer[TERGYOSUL_ANSWER_WORDS];

static uint32_t join(const char *first, const char *second)
{
    const uint8_t *one = (const uint8_t *)first, *two = (const uint8_t *)second;
    size_t i;

    for (i = 0; i < TERGYOSUL_TOKEN_WORDS; i++) {
        words[i] = others[i] = BEFORE;
    }
    return tergyosul_join(one, strlen(first), two, strlen(second), sheet, sizeof sheet - 1, one, 0, 0, 0, words,
                          TERGYOSUL_TOKEN_WORDS, others, TERGYOSUL_TOKEN_WORDS, answer, TERGYOSUL_ANSWER_WORDS);
}

/* Whether just so many records are written, and nothing behind them. */
static int has_records(const uint32_t *array, size_t count)
{
    size_t i;

    for (i = 0; i < count; i++) {
        const uint32_t *record = array + TERGYOSUL_RECORD * i;

        if (record[TERGYOSUL_TOKEN_KIND] == 0 || TERGYOSUL_LINE(record[TERGYOSUL_TOKEN_PLACE]) == 0) {
            return 0;
        }
    }
    for (i = TERGYOSUL_RECORD * count; i < TERGYOSUL_TOKEN_WORDS; i++) {
        if (array[i] != BEFORE) {
            return 0;
        }
    }
    return 1;
}

/* Whether a trigger's name, in the text that row 0 gives for it, is this one. */
static int is_name(const struct joining *joining, size_t trigger, const char *name)
{
    const uint32_t from = answer[TERGYOSUL_TRIGGERS_FROM + trigger];
    const uint32_t *row = answer + TERGYOSUL_ROW * (1 + trigger);
    const char *text = from == TERGYOSUL_FIRST ? joining->first : joining->second;

    return row[0] == TERGYOSUL_TIMER_FIRES && row[2] == strlen(name) && memcmp(text + row[1], name, row[2]) == 0;
}

int main(void)
{
    size_t i;

    for (i = 0; i < COUNT; i++) {
        const struct joining *joining = joinings + i;

        if (join(joining->first, joining->second) != joining->row[0] ||
            memcmp(answer, joining->row, sizeof joining->row) != 0) {
            fprintf(stderr, "joining %lu has another row 0\n", (unsigned long)i);
            return 1;
        }
        if (!has_records(words, joining->records) || !has_records(others, joining->others)) {
            fprintf(stderr, "joining %lu leaves other words\n", (unsigned long)i);
            return 1;
        }
    }
    if (join(joinings[0].first, joinings[0].second) != 0 || !is_name(joinings, 1, "Close") ||
        !is_name(joinings, 2, "Open")) {
        fprintf(stderr, "a name does not stand in the text of its trigger\n");
        return 1;
    }
    return 0;
}
