/*
 * A test: lists written out, by the header's names: the text of what was read or joined, what is refused and at which
 * entry, and what is left as it was. The exit status is 0 if all is as the header says.
 */
#include <stdio.h>
#include <string.h>

#include "tergyosul.h"

/* What every byte for the text and every word of the answer is before a call. */
#define BEFORE 7u

/* Rules, and what is written for them: for the first alone, or for both joined. */
struct writing {
    const char *first, *second, *text;
};

static const struct writing writings[] = {
    {"when lamp(5,adapter=1) turns on if lamp(1).level==-5", NULL,
     "when lamp ( 5 , adapter = 1 ) turns on if lamp ( 1 ) . level == - 5"},
    {"when input(type=4,adapter=1,group=5) is event(data=7)", NULL,
     "when input ( group = 5 , type = 4 , adapter = 1 ) is event ( data = 7 )"},
    {"when at 7:05 on fri..mon when at sunset+0s when every 1000000.001s when every 3s if day in mon..sun", NULL,
     "when at 07:05 on mon , fri , sat , sun when at sunset when every 1000000.001s when every 3000ms "
     "if day in mon , tue , wed , thu , fri , sat , sun"},
    {"when http trigger if var(\"a\")==var(\"b\")-0 and var(\"c\")!=\"\"", NULL,
     "when http trigger if var ( \"a\" ) == var ( \"b\" ) + 0 and var ( \"c\" ) != \"\""},
    {"when timer(\"Close\") fires if sun is down", "when http trigger when mqtt \"open\" if sun is down",
     "when timer ( \"Close\" ) fires when http trigger when mqtt \"open\" if sun is down"}
};
#define WRITINGS (sizeof writings / sizeof writings[0])

/* A rule with three entries: rows 1, 2 and 5. */
static const char rule[] = "when lamp(5, adapter=1) turns on when timer(\"Close\") fires if hcl is enabled for broadcast";
static const char rule_text[] =
    "when lamp ( 5 , adapter = 1 ) turns on when timer ( \"Close\" ) fires if hcl is enabled for broadcast";
#define LAMP TERGYOSUL_ROW
#define TIMER (2 * TERGYOSUL_ROW)
#define HCL (5 * TERGYOSUL_ROW)

/* A word of its lists that is changed, and the refusal: its number, and the entry as its line. */
struct change {
    size_t at;
    uint32_t word, number, line;
};

static const struct change changes[] = {
    /* counts */
    {4, 0, 55, 0}, {4, 5, 55, 0}, {4, 4294967295u, 55, 0}, {5, 5, 55, 0}, {5, 4294967295u, 55, 0},
    /* the rows of the third trigger and of the second condition are no entries' */
    {4, 3, 55, 3}, {5, 2, 55, 4},
    /* texts; the second, which is empty, has no name */
    {TERGYOSUL_TRIGGERS_FROM, 3, 55, 1}, {TERGYOSUL_TRIGGERS_FROM + 1, TERGYOSUL_SECOND, 55, 2},
    {TERGYOSUL_CONDITIONS_FROM, 3, 55, 3},
    /* a kind and a code that nothing has, and a word that the row does not name */
    {LAMP, 22, 55, 1}, {LAMP + 3, 3, 55, 1}, {LAMP + 4, 1, 55, 1}, {HCL, 17, 55, 3},
    /* a number out of its range, and names outside the text, also where start and length overflow */
    {LAMP + 1, 256, 55, 1}, {LAMP + 2, 64, 55, 1}, {TIMER + 1, 86, 55, 2}, {TIMER + 1, 4294967295u, 55, 2},
    {TIMER + 2, 0, 55, 2},
    /* adapters that are not listed, another party's, and broadcast beside the primary */
    {LAMP + 1, 2, 56, 1}, {LAMP + 1, 7, 56, 1}, {HCL + 2, 1, 56, 3},
    /* no change to what is written: the first text by its number, and words that are not looked at */
    {TERGYOSUL_TRIGGERS_FROM + 1, TERGYOSUL_FIRST, 0, 0}, {0, 31, 0, 0}, {TERGYOSUL_WHICH, 9, 0, 0},
    {TERGYOSUL_TRIGGERS_FROM + 2, 9, 0, 0}, {3 * TERGYOSUL_ROW, 99, 0, 0}, {8 * TERGYOSUL_ROW + 11, 1, 0, 0}
};
#define CHANGES (sizeof changes / sizeof changes[0])

static const uint8_t sheet[] = "primary,0\nadapter,0\nadapter,1\nadapter,7\nparty,7,3\n";
static const size_t sheet_length = sizeof sheet - 1;

static uint32_t words[TERGYOSUL_TOKEN_WORDS];
static uint32_t others[TERGYOSUL_TOKEN_WORDS];
static uint32_t lists[TERGYOSUL_ANSWER_WORDS];
static uint8_t out[TERGYOSUL_LEAST_BYTES + 1];
static uint32_t answer[TERGYOSUL_WRITE_WORDS + 1];

/* The lists of a rule, or of two joined. */
static int read_lists(const char *first, const char *second)
{
    const uint8_t *one = (const uint8_t *)first, *two = (const uint8_t *)second;

    if (second == NULL) {
        return tergyosul_read(one, strlen(first), sheet, sheet_length, one, 0, 0, 0, words, TERGYOSUL_TOKEN_WORDS,
                              lists, TERGYOSUL_ANSWER_WORDS) == 0;
    }
    return tergyosul_join(one, strlen(first), two, strlen(second), sheet, sheet_length, one, 0, 0, 0, words,
                          TERGYOSUL_TOKEN_WORDS, others, TERGYOSUL_TOKEN_WORDS, lists, TERGYOSUL_ANSWER_WORDS) == 0;
}

/* Writes the lists out. The result is whether it is this text that is written, or this refusal, and nothing else. */
static int is_written(const char *first, const char *second, const uint8_t *of_sheet, size_t of_length, uint8_t party,
                      size_t lists_length, size_t out_length, const char *text, uint32_t number, uint32_t line)
{
    const size_t length = number == 0 ? strlen(text) : 0;
    const uint32_t expected[] = {number, line, 0, 0, (uint32_t)length, BEFORE};
    uint32_t result;
    size_t i;

    memset(out, BEFORE, sizeof out);
    for (i = 0; i < TERGYOSUL_WRITE_WORDS + 1; i++) {
        answer[i] = BEFORE;
    }
    result = tergyosul_write((const uint8_t *)first, strlen(first), (const uint8_t *)second, strlen(second), of_sheet,
                             of_length, party, 0, lists, lists_length, out, out_length, answer,
                             TERGYOSUL_WRITE_WORDS + 1);
    for (i = length; i < sizeof out; i++) {
        if (out[i] != BEFORE) {
            return 0;
        }
    }
    return result == number && memcmp(answer, expected, sizeof expected) == 0 && memcmp(out, text, length) == 0;
}

/* The same of `rule` with a call as it should be. */
static int is_rule_written(uint32_t number, uint32_t line)
{
    return is_written(rule, "", sheet, sheet_length, 0, TERGYOSUL_ANSWER_WORDS, TERGYOSUL_LEAST_BYTES, rule_text, number,
                      line);
}

/* Texts are written, and read and written again they are the same. */
static int are_texts_written(void)
{
    size_t i;

    for (i = 0; i < WRITINGS; i++) {
        const struct writing *writing = writings + i;
        const char *second = writing->second == NULL ? "" : writing->second;

        if (!read_lists(writing->first, writing->second) ||
            !is_written(writing->first, second, sheet, sheet_length, 0, TERGYOSUL_ANSWER_WORDS, TERGYOSUL_LEAST_BYTES,
                        writing->text, 0, 0)) {
            fprintf(stderr, "rule %lu is not written so\n", (unsigned long)i);
            return 0;
        }
        if (!read_lists(writing->text, NULL) ||
            !is_written(writing->text, "", sheet, sheet_length, 0, TERGYOSUL_ANSWER_WORDS, TERGYOSUL_LEAST_BYTES,
                        writing->text, 0, 0)) {
            fprintf(stderr, "the text of rule %lu has other lists\n", (unsigned long)i);
            return 0;
        }
    }
    return 1;
}

static int are_changes_told(void)
{
    size_t i;

    for (i = 0; i < CHANGES; i++) {
        const struct change *change = changes + i;

        if (!read_lists(rule, NULL)) {
            return 0;
        }
        lists[change->at] = change->word;
        if (!is_rule_written(change->number, change->line)) {
            fprintf(stderr, "word %lu as %lu is answered otherwise\n", (unsigned long)change->at,
                    (unsigned long)change->word);
            return 0;
        }
    }
    return 1;
}

/* Which refusal comes first, what the call itself is refused with, and lists that end early. */
static int is_call_judged(void)
{
    static const uint8_t bad[] = "primary,0\nlamp\n";
    const size_t whole = TERGYOSUL_ANSWER_WORDS, least = TERGYOSUL_LEAST_BYTES;

    if (!read_lists(rule, NULL)) {
        return 0;
    }
    lists[LAMP + 1] = 2;
    lists[HCL + 4] = 3;
    return is_rule_written(55, 3) && /* an entry that no text gives, before one that the call cannot name */
           is_written(rule, "", sheet, sheet_length, 0, whole, least - 1, "", 54, 0) &&
           is_written(rule, "", sheet, sheet_length, 3, whole, least - 1, "", 53, 0) &&
           is_written(rule, "", bad, sizeof bad - 1, 3, whole, least - 1, "", 3, 2) && read_lists(rule, NULL) &&
           is_written(rule, "", sheet, sheet_length, 0, whole, least + 1, rule_text, 0, 0) &&
           is_written(rule, "", sheet, sheet_length, 0, HCL + 5, least, rule_text, 0, 0) &&
           is_written(rule, "", sheet, sheet_length, 0, HCL + 4, least, "", 55, 3) &&
           is_written(rule, "", sheet, sheet_length, 0, TIMER, least, "", 55, 2) &&
           is_written(rule, "", sheet, sheet_length, 0, 0, least, "", 55, 0);
}

int main(void)
{
    if (!are_texts_written() || !are_changes_told()) {
        return 1;
    }
    if (!is_call_judged()) {
        fprintf(stderr, "the call or lists that end early are answered otherwise\n");
        return 1;
    }
    return 0;
}
