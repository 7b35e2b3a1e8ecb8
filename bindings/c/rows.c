/*
 * A test: rows of the previous owners converted to triggers and back, by the header's names: what comes of them, what is
 * refused and at which row or entry, and what is left as it was. The exit status is 0 if all is as the header says.
 */
#include <stdio.h>
#include <string.h>

#include "tergyosul.h"

/* What every byte for the rows and every word of the answer is before a call. */
#define BEFORE 7u

/* Rows, and what their triggers are converted back to. */
struct conversion {
    const char *rows, *back;
};

static const struct conversion conversions[] = {
    {"lamp,Till,,on\n", "lamp,Till,1,on\n"},
    {"lamp,Aisle,0,off\nlamp,Aisle,1,on\nlamp,Aisle,1,on\n", "lamp,Aisle,0,off\nlamp,Aisle,1,on\nlamp,Aisle,1,on\n"},
    {"group,Hall,0,any_on\ngroup,Hall,,all_off\ndevice,Gate,,offline\ndevice,Gate,1,online\n",
     "group,Hall,0,any_on\ngroup,Hall,0,all_off\ndevice,Gate,1,offline\ndevice,Gate,1,online\n"},
    /* the first of the sheet's rows for a lamp that picks it and has no comma */
    {"lamp,Window,,on\nlamp,Left,,on\n", "lamp,Front,0,on\nlamp,Right,0,on\n"}
};
#define CONVERSIONS (sizeof conversions / sizeof conversions[0])

/* Rows that are refused: the number, the row as its line, and the detail. */
struct refusal {
    const char *rows;
    uint32_t number, line, detail;
};

static const struct refusal refusals[] = {
    /* none, an empty one, no LF, CR, no fields, a fifth */
    {"", 60, 0, 0}, {"\n", 60, 1, 0}, {"lamp,Till,,on", 60, 1, 0}, {"lamp,Till,,on\n\n", 60, 2, 0},
    {"lamp,Till,,on\r\n", 60, 1, 0}, {"lamp,Till,on\n", 60, 1, 0}, {"lamp,Till,,on,\n", 60, 1, 0},
    {"lamp,Till,,on\nlamp,Till,,on\nlamp,Till,,on\nlamp,Till,,on\n,", 60, 5, 0},
    /* kinds and words, adapters, names */
    {"lamps,Till,,on\n", 60, 1, 0}, {"lamp,Till,,any_on\n", 60, 1, 0}, {"lamp,Till,,On\n", 60, 1, 0},
    {"lamp,Till,256,on\n", 60, 1, 0}, {"lamp,Till,01,on\n", 60, 1, 0}, {"lamp,,,on\n", 60, 1, 0},
    {"lamp,Aisle 3, cold,0,on\n", 60, 1, 0}, {"lamp,Ti\"ll,,on\n", 60, 1, 0},
    {"lamp,1234567890123456789012345678901234567890123456789,,on\n", 60, 1, 0},
    /* before any name */
    {"lamp,Nowhere,,on\nlamp,Till,2,on\nlamp\n", 60, 3, 0},
    /* names: adapters that are not listed, another party's, none, and several */
    {"lamp,Till,2,on\n", 25, 1, 0}, {"lamp,Oven,7,on\n", 25, 1, 0}, {"lamp,Oven,,on\n", 31, 1, 0},
    {"lamp,Till,,on\ngroup,Till,,any_on\nlamp,Till,2,on\n", 31, 2, 0}, {"lamp,Till,,on\nlamp,Till,0,on\n", 32, 2, 1},
    {"lamp,Twin,0,on\n", 33, 1, 2}, {"lamp,Aisle,,on\n", 34, 1, 2}
};
#define REFUSALS (sizeof refusals / sizeof refusals[0])

/* Rows for two triggers, the first in row 1 of the answer, the second in row 2. */
static const char two[] = "lamp,Till,1,on\ngroup,Hall,0,all_off\n";
#define LAMP TERGYOSUL_ROW
#define GROUP (2 * TERGYOSUL_ROW)

/* A word of their lists that is changed, and the refusal: its number, and the entry as its line. */
struct change {
    size_t at;
    uint32_t word, number, line;
};

static const struct change changes[] = {
    /* counts; the row of the third trigger is no trigger's, and any condition is one too many */
    {4, 0, 61, 0}, {4, 5, 61, 0}, {4, 4294967295u, 61, 0}, {4, 3, 61, 3}, {5, 1, 61, 3}, {5, 5, 61, 3},
    {5, 4294967295u, 61, 3},
    /* a kind and a code that nothing has, a word that the row does not name, and a trigger that no row says */
    {LAMP, 22, 61, 1}, {GROUP + 3, 3, 61, 2}, {LAMP + 4, 1, 61, 1}, {LAMP, TERGYOSUL_LAMP_LEVEL_CROSS, 61, 1},
    /* adapters that are not listed or another party's, and numbers without a row in the sheet or with none that serves */
    {LAMP + 1, 2, 62, 1}, {LAMP + 1, 7, 62, 1}, {LAMP + 1, 256, 62, 1}, {LAMP + 2, 8, 62, 1}, {LAMP + 2, 64, 62, 1},
    {GROUP + 2, 3, 62, 2},
    /* no change to what is written: words that are not looked at */
    {0, 31, 0, 0}, {TERGYOSUL_WHICH, 9, 0, 0}, {TERGYOSUL_TRIGGERS_FROM, 9, 0, 0}, {TERGYOSUL_CONDITIONS_FROM, 9, 0, 0},
    {3 * TERGYOSUL_ROW, 99, 0, 0}, {5 * TERGYOSUL_ROW, 99, 0, 0}
};
#define CHANGES (sizeof changes / sizeof changes[0])

static const char sheet[] =
    "primary,0\nadapter,0\nadapter,1\nadapter,7\nparty,7,3\nlamp,1,7,Till\nlamp,0,4,Aisle\nlamp,1,4,Aisle\n"
    "lamp,0,5,Twin\nlamp,0,6,Twin\nlamp,0,5,Left, at the door\nlamp,0,5,Right\nlamp,0,5,Left\nlamp,0,6,Front\n"
    "lamp,0,6,Window\nlamp,2,8,Far\nlamp,7,9,Oven\ngroup,0,2,Hall\ngroup,0,3,Hall, cold\ndevice,1,3,Gate\n";

static uint32_t lists[TERGYOSUL_ANSWER_WORDS];
static uint8_t out[TERGYOSUL_ROWS_LEAST_BYTES + 1];
static uint32_t answer[TERGYOSUL_WRITE_WORDS + 1];

/* Converts rows for party 0. The result is whether that is answered so. */
static int is_converted(const char *rows, const char *of_sheet, uint32_t number, uint32_t line, uint32_t detail)
{
    const uint32_t result = tergyosul_rows((const uint8_t *)rows, strlen(rows), (const uint8_t *)of_sheet,
                                           strlen(of_sheet), 0, 0, lists, TERGYOSUL_ANSWER_WORDS);

    return result == number && lists[0] == number && lists[1] == line && lists[2] == 0 && lists[3] == detail &&
           (lists[4] == 0) == (number != 0) && lists[5] == 0;
}

/* Converts the lists back. The result is whether it is these rows that are written, or this refusal, and nothing else. */
static int is_written(const char *of_sheet, uint8_t party, size_t lists_length, size_t out_length, const char *rows,
                      uint32_t number, uint32_t line)
{
    const size_t length = number == 0 ? strlen(rows) : 0;
    const uint32_t expected[] = {number, line, 0, 0, (uint32_t)length, BEFORE};
    uint32_t result;
    size_t i;

    memset(out, BEFORE, sizeof out);
    for (i = 0; i < TERGYOSUL_WRITE_WORDS + 1; i++) {
        answer[i] = BEFORE;
    }
    result = tergyosul_rows_back((const uint8_t *)of_sheet, strlen(of_sheet), party, 0, lists, lists_length, out,
                                 out_length, answer, TERGYOSUL_WRITE_WORDS + 1);
    for (i = length; i < sizeof out; i++) {
        if (out[i] != BEFORE) {
            return 0;
        }
    }
    return result == number && memcmp(answer, expected, sizeof expected) == 0 && memcmp(out, rows, length) == 0;
}

/* The same with a call as it should be. */
static int is_back(const char *rows, uint32_t number, uint32_t line)
{
    return is_written(sheet, 0, TERGYOSUL_ANSWER_WORDS, TERGYOSUL_ROWS_LEAST_BYTES, rows, number, line);
}

/* Rows are converted, and what they are converted back to has the same triggers. */
static int are_rows_converted(void)
{
    uint32_t first[TERGYOSUL_ANSWER_WORDS];
    size_t i;

    for (i = 0; i < CONVERSIONS; i++) {
        const struct conversion *conversion = conversions + i;

        if (!is_converted(conversion->rows, sheet, 0, 0, 0) || !is_back(conversion->back, 0, 0)) {
            fprintf(stderr, "rows %lu are not converted so\n", (unsigned long)i);
            return 0;
        }
        memcpy(first, lists, sizeof first);
        if (!is_converted(conversion->back, sheet, 0, 0, 0) || memcmp(lists, first, sizeof first) != 0) {
            fprintf(stderr, "rows %lu have other triggers when they come back\n", (unsigned long)i);
            return 0;
        }
    }
    return 1;
}

static int are_rows_refused(void)
{
    size_t i;

    for (i = 0; i < REFUSALS; i++) {
        const struct refusal *refusal = refusals + i;

        if (!is_converted(refusal->rows, sheet, refusal->number, refusal->line, refusal->detail)) {
            fprintf(stderr, "rows %lu are not refused so\n", (unsigned long)i);
            return 0;
        }
    }
    return 1;
}

static int are_changes_told(void)
{
    size_t i;

    for (i = 0; i < CHANGES; i++) {
        const struct change *change = changes + i;

        if (!is_converted(two, sheet, 0, 0, 0)) {
            return 0;
        }
        lists[change->at] = change->word;
        if (!is_back(two, change->number, change->line)) {
            fprintf(stderr, "word %lu as %lu is answered otherwise\n", (unsigned long)change->at,
                    (unsigned long)change->word);
            return 0;
        }
    }
    return 1;
}

/* Which refusal comes first, what the call itself is refused with, and lists that end early. */
static int is_call_judged(void)
{
    static const char bad[] = "primary,0\nlamp\n";
    const size_t whole = TERGYOSUL_ANSWER_WORDS, least = TERGYOSUL_ROWS_LEAST_BYTES;

    if (!is_converted("", bad, 3, 2, 0) || !is_converted("", "primary,0\nparty,0,3\n", 53, 0, 0) ||
        !is_converted(two, sheet, 0, 0, 0)) {
        return 0;
    }
    lists[5] = 1;
    lists[LAMP + 1] = 2;
    if (!is_back("", 61, 3)) { /* a condition, before a lamp that has no row */
        return 0;
    }
    return is_written(sheet, 0, whole, least - 1, "", 54, 0) && is_written(sheet, 3, whole, least - 1, "", 53, 0) &&
           is_written(bad, 3, whole, least - 1, "", 3, 2) && is_converted(two, sheet, 0, 0, 0) &&
           is_written(sheet, 0, whole, least + 1, two, 0, 0) && is_written(sheet, 0, GROUP + 4, least, two, 0, 0) &&
           is_written(sheet, 0, GROUP + 3, least, "", 61, 2) && is_written(sheet, 0, GROUP, least, "", 61, 2) &&
           is_written(sheet, 0, 4, least, "", 61, 0) && is_written(sheet, 0, 0, least, "", 61, 0);
}

/* The longest rows, and a name on an adapter that is not listed: it is found, and a row cannot name that adapter. */
static int are_limits_kept(void)
{
#define LONGEST "123456789012345678901234567890123456789012345678"
#define ROW "device," LONGEST ",255,offline\n"
    static const char longest[] = ROW ROW ROW ROW;
    static const char of_sheet[] = "primary,0\nadapter,255\ndevice,255,3," LONGEST "\n";

    return sizeof longest - 1 == TERGYOSUL_ROWS_MOST_BYTES && is_converted(longest, of_sheet, 0, 0, 0) &&
           is_written(of_sheet, 0, TERGYOSUL_ANSWER_WORDS, TERGYOSUL_ROWS_LEAST_BYTES, longest, 0, 0) &&
           is_converted("lamp,Far,,on\n", sheet, 0, 0, 0) && is_back("", 62, 1) &&
           is_converted("lamp,Far,2,on\n", sheet, 25, 1, 0);
}

int main(void)
{
    if (!are_rows_converted() || !are_rows_refused() || !are_changes_told()) {
        return 1;
    }
    if (!is_call_judged() || !are_limits_kept()) {
        fprintf(stderr, "the call, lists that end early or the limits are answered otherwise\n");
        return 1;
    }
    return 0;
}
