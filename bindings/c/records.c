/*
 * A test: the records of the tokens, by the header's names. The exit status is 0 if they are what the text has.
 */
#include <stdio.h>

#include "tergyosul.h"

/* What every word is before a call. */
#define BEFORE 7u

struct token {
    uint32_t kind, number, start, length, line, column;
};

static const uint8_t text[] = "when lamp(\"K\xC3\xA4se\") turns on\n  if time in 7:05..21:00";
static const struct token expected[] = {
    {1, 0, 0, 4, 1, 1},      /* when */
    {1, 0, 5, 4, 1, 6},      /* lamp */
    {7, 0, 9, 1, 1, 10},     /* ( */
    {2, 0, 11, 5, 1, 11},    /* the name, inside its quotes; its place is the quote's */
    {8, 0, 17, 1, 1, 17},    /* ) */
    {1, 0, 19, 5, 1, 19},    /* turns */
    {1, 0, 25, 2, 1, 25},    /* on */
    {1, 0, 30, 2, 2, 3},     /* if */
    {1, 0, 33, 4, 2, 6},     /* time */
    {1, 0, 38, 2, 2, 11},    /* in */
    {4, 425, 41, 4, 2, 14},  /* 7:05 */
    {13, 0, 45, 2, 2, 18},   /* .. */
    {4, 1260, 47, 5, 2, 20}  /* 21:00 */
};
#define COUNT (sizeof expected / sizeof expected[0])

static uint32_t words[TERGYOSUL_TOKEN_WORDS];
static uint32_t answer[TERGYOSUL_LEX_WORDS];

static uint32_t lex(size_t words_length)
{
    return tergyosul_lex(text, sizeof text - 1, words, words_length, answer, TERGYOSUL_LEX_WORDS);
}

static int is_token(const uint32_t *record, const struct token *token)
{
    return record[TERGYOSUL_TOKEN_KIND] == token->kind && record[TERGYOSUL_TOKEN_NUMBER] == token->number &&
           record[TERGYOSUL_TOKEN_START] == token->start && record[TERGYOSUL_TOKEN_LENGTH] == token->length &&
           TERGYOSUL_LINE(record[TERGYOSUL_TOKEN_PLACE]) == token->line &&
           TERGYOSUL_COLUMN(record[TERGYOSUL_TOKEN_PLACE]) == token->column;
}

int main(void)
{
    size_t i;

    for (i = 0; i < TERGYOSUL_TOKEN_WORDS; i++) {
        words[i] = BEFORE;
    }
    if (lex(TERGYOSUL_TOKEN_WORDS - 1) != 2) {
        fprintf(stderr, "too few words are not told\n");
        return 1;
    }
    if (lex(TERGYOSUL_TOKEN_WORDS) != 0 || answer[3] != COUNT) {
        fprintf(stderr, "the text has other tokens\n");
        return 1;
    }
    for (i = 0; i < COUNT; i++) {
        if (!is_token(words + TERGYOSUL_RECORD * i, expected + i)) {
            fprintf(stderr, "token %lu has another record\n", (unsigned long)i);
            return 1;
        }
    }
    for (i = TERGYOSUL_RECORD * COUNT; i < TERGYOSUL_TOKEN_WORDS; i++) {
        if (words[i] != BEFORE) {
            fprintf(stderr, "something is written behind the records\n");
            return 1;
        }
    }
    return 0;
}
