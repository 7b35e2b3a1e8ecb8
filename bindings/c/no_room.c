/*
 * A test: calls with an answer that is too short say so, and read and write nothing. The exit status is 0 if that is so.
 */
#include <stdio.h>
#include <string.h>

#include "tergyosul.h"

#define BEFORE 7u

static uint32_t words[TERGYOSUL_TOKEN_WORDS];
static uint32_t others[TERGYOSUL_TOKEN_WORDS];
static uint32_t answer[TERGYOSUL_ANSWER_WORDS];
static uint32_t lists[TERGYOSUL_ANSWER_WORDS];
static uint8_t out[TERGYOSUL_LEAST_BYTES];

static void fill(uint32_t *array, size_t length)
{
    size_t i;

    for (i = 0; i < length; i++) {
        array[i] = BEFORE;
    }
}

static int is_filled(const uint32_t *array, size_t length)
{
    size_t i;

    for (i = 0; i < length; i++) {
        if (array[i] != BEFORE) {
            return 0;
        }
    }
    return 1;
}

int main(void)
{
    static const uint8_t text[] = "when http trigger";
    static const uint8_t rows[] = "lamp,Till,0,on\n";
    static const uint8_t sheet[] = "primary,0\nadapter,0\nlamp,0,7,Till";
    const size_t text_length = sizeof text - 1, rows_length = sizeof rows - 1, sheet_length = sizeof sheet - 1;
    uint32_t read, archive, shop, join, written, converted, back, lexed, chain;

    fill(words, TERGYOSUL_TOKEN_WORDS);
    fill(others, TERGYOSUL_TOKEN_WORDS);
    fill(answer, TERGYOSUL_ANSWER_WORDS);
    lists[4] = 1; /* the same rule */
    lists[TERGYOSUL_ROW] = TERGYOSUL_HTTP_TRIGGER;
    read = tergyosul_read(text, text_length, sheet, sheet_length, text, 0, 0, 0, words, TERGYOSUL_TOKEN_WORDS, answer,
                          TERGYOSUL_ANSWER_WORDS - 1);
    archive = tergyosul_read_archive(text, text_length, sheet, sheet_length, text, 0, 0, 0, words,
                                     TERGYOSUL_TOKEN_WORDS, answer, TERGYOSUL_ANSWER_WORDS - 1);
    shop = tergyosul_read_shop(text, text_length, sheet, sheet_length, text, 0, 0, 0, words, TERGYOSUL_TOKEN_WORDS,
                               answer, TERGYOSUL_ANSWER_WORDS - 1);
    join = tergyosul_join(text, text_length, text, text_length, sheet, sheet_length, text, 0, 0, 0, words,
                          TERGYOSUL_TOKEN_WORDS, others, TERGYOSUL_TOKEN_WORDS, answer, TERGYOSUL_ANSWER_WORDS - 1);
    written = tergyosul_write(text, text_length, text, 0, sheet, sheet_length, 0, 0, lists, TERGYOSUL_ANSWER_WORDS, out,
                              TERGYOSUL_LEAST_BYTES, answer, TERGYOSUL_WRITE_WORDS - 1);
    converted = tergyosul_rows(rows, rows_length, sheet, sheet_length, 0, 0, answer, TERGYOSUL_ANSWER_WORDS - 1);
    back = tergyosul_rows_back(sheet, sheet_length, 0, 0, lists, TERGYOSUL_ANSWER_WORDS, out, TERGYOSUL_LEAST_BYTES, answer,
                               TERGYOSUL_WRITE_WORDS - 1);
    lexed = tergyosul_lex(text, text_length, words, TERGYOSUL_TOKEN_WORDS, answer, TERGYOSUL_LEX_WORDS - 1);
    chain = tergyosul_next_chain(text, 0, answer, TERGYOSUL_CHAIN_WORDS - 1);
    if (read != TERGYOSUL_NO_ROOM || archive != TERGYOSUL_NO_ROOM || shop != TERGYOSUL_NO_ROOM ||
        join != TERGYOSUL_NO_ROOM || written != TERGYOSUL_NO_ROOM || converted != TERGYOSUL_NO_ROOM ||
        back != TERGYOSUL_NO_ROOM || lexed != TERGYOSUL_NO_ROOM || chain != TERGYOSUL_NO_ROOM) {
        fprintf(stderr, "an answer without room is not told\n");
        return 1;
    }
    if (!is_filled(words, TERGYOSUL_TOKEN_WORDS) || !is_filled(others, TERGYOSUL_TOKEN_WORDS) ||
        !is_filled(answer, TERGYOSUL_ANSWER_WORDS) || out[0] != 0) {
        fprintf(stderr, "something was written without room for the answer\n");
        return 1;
    }
    read = tergyosul_read(text, text_length, sheet, sheet_length, text, 0, 0, 0, words, TERGYOSUL_TOKEN_WORDS, answer,
                          TERGYOSUL_ANSWER_WORDS);
    archive = tergyosul_read_archive(text, text_length, sheet, sheet_length, text, 0, 0, 0, words,
                                     TERGYOSUL_TOKEN_WORDS, answer, TERGYOSUL_ANSWER_WORDS);
    shop = tergyosul_read_shop(text, text_length, sheet, sheet_length, text, 0, 0, 0, words, TERGYOSUL_TOKEN_WORDS,
                               answer, TERGYOSUL_ANSWER_WORDS);
    join = tergyosul_join(text, text_length, text, text_length, sheet, sheet_length, text, 0, 0, 0, words,
                          TERGYOSUL_TOKEN_WORDS, others, TERGYOSUL_TOKEN_WORDS, answer, TERGYOSUL_ANSWER_WORDS);
    lexed = tergyosul_lex(text, text_length, words, TERGYOSUL_TOKEN_WORDS, answer, TERGYOSUL_LEX_WORDS);
    if (read != 0 || archive != 0 || shop != 0 || join != 0 || lexed != 0 || answer[3] != 3 ||
        answer[TERGYOSUL_ROW] != TERGYOSUL_HTTP_TRIGGER) {
        fprintf(stderr, "an answer that just has room is not given\n");
        return 1;
    }
    written = tergyosul_write(text, text_length, text, 0, sheet, sheet_length, 0, 0, lists, TERGYOSUL_ANSWER_WORDS, out,
                              TERGYOSUL_LEAST_BYTES, answer, TERGYOSUL_WRITE_WORDS);
    if (written != 0 || answer[TERGYOSUL_WRITE_LENGTH] != text_length || memcmp(out, text, text_length) != 0) {
        fprintf(stderr, "a text whose answer just has room is not written\n");
        return 1;
    }
    converted = tergyosul_rows(rows, rows_length, sheet, sheet_length, 0, 0, lists, TERGYOSUL_ANSWER_WORDS);
    back = tergyosul_rows_back(sheet, sheet_length, 0, 0, lists, TERGYOSUL_ANSWER_WORDS, out, TERGYOSUL_ROWS_LEAST_BYTES,
                               answer, TERGYOSUL_WRITE_WORDS);
    if (converted != 0 || lists[TERGYOSUL_ROW] != TERGYOSUL_LAMP_TURNS || back != 0 ||
        answer[TERGYOSUL_WRITE_LENGTH] != rows_length || memcmp(out, rows, rows_length) != 0) {
        fprintf(stderr, "rows whose answer just has room are not converted\n");
        return 1;
    }
    chain = tergyosul_next_chain(text, 0, answer, TERGYOSUL_CHAIN_WORDS);
    if (chain != 0 || answer[TERGYOSUL_CHAIN_COUNT] != 3 || answer[TERGYOSUL_CHAIN_PIECES] != TERGYOSUL_PIECE_SUN) {
        fprintf(stderr, "a chain that just has room is not given\n");
        return 1;
    }
    return 0;
}
