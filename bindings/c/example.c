/*
 * Reads a rule with its name sheet and says what it has, or writes it out again, or joins two rules; or converts rows of the
 * previous owners.
 *
 *   example [--shop | --write | --to-rows] RULE SHEET [TOPICS] [PARTY PRIMARY]
 *   example --join RULE RULE SHEET [TOPICS] [PARTY PRIMARY]
 *   example --rows ROWS SHEET [PARTY PRIMARY]
 *
 * under the shop profile, or else as any rule, with the topics of earlier rules, one a line, or else with none, and for a
 * party with its own primary adapter, or else for party 0 with the sheet's. Joined rules are written out as one, too, and
 * what rows are converted to is converted back.
 * The exit status is 0 if all is accepted and written, 1 if it is refused, 2 for wrong usage or a file that cannot be read.
 */
#include <stdio.h>
#include <string.h>

#include "tergyosul.h"

/* More than a text or a sheet may have, so that one that is too long is passed whole and refused by the library. Topics may
 * be of any length, for the library; here they get as much. */
#define ROOM 65536

static uint8_t text[ROOM];
static uint8_t second[ROOM];
static uint8_t sheet[ROOM];
static uint8_t topics[ROOM];
static uint32_t words[TERGYOSUL_TOKEN_WORDS];
static uint32_t others[TERGYOSUL_TOKEN_WORDS];
static uint32_t answer[TERGYOSUL_ANSWER_WORDS];
static uint8_t out[TERGYOSUL_LEAST_BYTES];
static uint32_t written[TERGYOSUL_WRITE_WORDS];

/* The lengths of what is loaded, and whose call it is. */
static size_t text_length, second_length, sheet_length, topics_length;
static uint8_t party, primary;

/* The kinds by their numbers. The proved library gives none outside these tables. */
static const char *const triggers[] = {
    "none", "input event", "input occupancy", "input light crosses", "input position changes",
    "input device power cycled", "input device manual config changed", "at time", "at solar event", "every",
    "lamp turns", "lamp level crosses", "group becomes", "scene recalled", "device online", "hcl override",
    "timer fires", "controller starts", "controller becomes active", "rule fails", "http trigger", "mqtt message"
};

static const char *const conditions[] = {
    "none", "time in range", "sun is", "lamp is", "lamp level", "lamp cct", "group state", "input occupancy",
    "input light", "hcl state", "device online", "rule enabled", "last fired older than", "timer running",
    "controller active", "var compared", "day in"
};

/* The days' words, in the order of their bits. */
static const char *const days[] = { "mon", "tue", "wed", "thu", "fri", "sat", "sun" };

/* Reads a whole file. The result is 0 if it cannot be read or has more than ROOM bytes; nothing is cut off. */
static int load(const char *path, uint8_t *bytes, size_t *length)
{
    FILE *file = fopen(path, "rb");
    int fits;

    if (file == NULL) {
        fprintf(stderr, "%s: cannot be opened\n", path);
        return 0;
    }
    *length = fread(bytes, 1, ROOM, file);
    fits = fgetc(file) == EOF;
    if (ferror(file)) {
        fprintf(stderr, "%s: cannot be read\n", path);
        fclose(file);
        return 0;
    }
    fclose(file);
    if (!fits) {
        fprintf(stderr, "%s: more than %d bytes, for which there is no room here\n", path, ROOM);
    }
    return fits;
}

/* A party or an adapter: 0 to 255 in decimal. The result is 0 if the word is no such number; it is not cut to one. */
static int byte_of(const char *word, uint8_t *byte)
{
    unsigned value = 0;
    size_t i;

    for (i = 0; word[i] >= '0' && word[i] <= '9' && value <= 255; i++) {
        value = 10 * value + (unsigned)(word[i] - '0');
    }
    *byte = (uint8_t)value;
    return i > 0 && word[i] == '\0' && value <= 255;
}

/* One of two words, by its code. */
static const char *either(uint32_t code, const char *first, const char *second)
{
    return code == 1 ? first : second;
}

/* A NAME: a range of the bytes of the text that the entry is taken from. */
static void put_name(uint32_t from, const uint32_t *name)
{
    putchar('"');
    fwrite((from == TERGYOSUL_SECOND ? second : text) + name[0], 1, name[1], stdout);
    putchar('"');
}

/* The text that an entry of two joined rules is taken from; nothing for a rule by itself. */
static void put_from(uint32_t from)
{
    if (from != 0) {
        printf(", from the %s rule", either(from, "first", "second"));
    }
    putchar('\n');
}

/* Minutes since midnight. */
static void put_time(uint32_t minutes)
{
    printf("%lu:%02lu", (unsigned long)(minutes / 60), (unsigned long)(minutes % 60));
}

/* SUN OFFSET. The offset is of 32 bits in two's complement; it is turned without an overflow. */
static void put_solar(const uint32_t *solar)
{
    uint32_t offset = solar[1];

    printf("%s", either(solar[0], "sunrise", "sunset"));
    if (offset >= 2147483648u) {
        printf(" - %lu ms", (unsigned long)(0u - offset));
    } else if (offset > 0) {
        printf(" + %lu ms", (unsigned long)offset);
    }
}

/* DAYS, with commas between. */
static void put_days(uint32_t set)
{
    const char *comma = "";
    size_t i;

    for (i = 0; i < sizeof days / sizeof days[0]; i++) {
        if ((set >> i & 1) != 0) {
            printf("%s%s", comma, days[i]);
            comma = ", ";
        }
    }
}

/* DAYS behind a time, where they are fewer than seven. */
static void put_on(uint32_t set)
{
    if (set != TERGYOSUL_EVERY_DAY) {
        printf(" on ");
        put_days(set);
    }
}

static void put_bound(const uint32_t *bound)
{
    if (bound[0] == 1) {
        put_time(bound[1]);
    } else {
        put_solar(bound + 1);
    }
}

/* A lamp, a group or a device with its adapter. */
static void put_ref(const char *kind, const uint32_t *ref)
{
    printf("%s %lu of adapter %lu", kind, (unsigned long)ref[1], (unsigned long)ref[0]);
}

/* The words beside a kind, as they stand in the row: for the entries that this example does not put in words. */
static void put_words(const uint32_t *row)
{
    int i;

    for (i = 1; i < TERGYOSUL_ROW; i++) {
        printf(" %lu", (unsigned long)row[i]);
    }
}

static void put_trigger(uint32_t from, const uint32_t *row)
{
    printf("trigger, %s: ", triggers[row[0]]);
    switch (row[0]) {
    case TERGYOSUL_AT_TIME:
        put_time(row[1]);
        put_on(row[2]);
        break;
    case TERGYOSUL_AT_SOLAR:
        put_solar(row + 1);
        put_on(row[3]);
        break;
    case TERGYOSUL_EVERY:
        printf("%lu ms", (unsigned long)row[1]);
        break;
    case TERGYOSUL_LAMP_TURNS:
        put_ref("lamp", row + 1);
        printf(" turns %s", either(row[3], "on", "off"));
        break;
    case TERGYOSUL_LAMP_LEVEL_CROSS:
        put_ref("lamp", row + 1);
        printf(" crosses %s %lu", either(row[3], "above", "below"), (unsigned long)row[4]);
        break;
    case TERGYOSUL_GROUP_BECOMES:
        put_ref("group", row + 1);
        printf(" becomes %s", either(row[3], "any_on", "all_off"));
        break;
    case TERGYOSUL_TIMER_FIRES:
    case TERGYOSUL_RULE_FAILS:
    case TERGYOSUL_MQTT_MESSAGE:
        put_name(from, row + 1);
        break;
    case TERGYOSUL_CONTROLLER_STARTS:
    case TERGYOSUL_CONTROLLER_BECOMES_ACTIVE:
    case TERGYOSUL_HTTP_TRIGGER:
        printf("nothing beside it");
        break;
    default:
        printf("words");
        put_words(row);
    }
    put_from(from);
}

static void put_condition(uint32_t from, const uint32_t *row)
{
    printf("condition, %s: ", conditions[row[0]]);
    switch (row[0]) {
    case TERGYOSUL_IF_TIME_IN_RANGE:
        put_bound(row + 1);
        printf(" to ");
        put_bound(row + 4);
        break;
    case TERGYOSUL_IF_SUN_IS:
        printf("%s", either(row[1], "up", "down"));
        break;
    case TERGYOSUL_IF_LAMP_IS:
        put_ref("lamp", row + 1);
        printf(" is %s", either(row[3], "on", "off"));
        break;
    case TERGYOSUL_IF_GROUP_STATE:
        put_ref("group", row + 1);
        printf(" has %s", either(row[3], "any_on", "all_off"));
        break;
    case TERGYOSUL_IF_DEVICE_ONLINE:
        put_ref("device", row + 1);
        break;
    case TERGYOSUL_IF_RULE_ENABLED:
    case TERGYOSUL_IF_TIMER_RUNNING:
        put_name(from, row + 1);
        break;
    case TERGYOSUL_IF_LAST_FIRED_OLDER_THAN:
        put_name(from, row + 1);
        printf(", %lu ms", (unsigned long)row[3]);
        break;
    case TERGYOSUL_IF_CONTROLLER_ACTIVE:
        printf("nothing beside it");
        break;
    case TERGYOSUL_IF_DAY_IN:
        put_days(row[1]);
        break;
    default:
        printf("words");
        put_words(row);
    }
    put_from(from);
}

/* How many tokens a rule has, and where the last one stands: the records end at the first whose kind is still 0. */
static void put_tokens(const uint32_t *records)
{
    uint32_t count = 0, place = 0;

    while (count < TERGYOSUL_TOKEN_WORDS / TERGYOSUL_RECORD) {
        const uint32_t *record = records + TERGYOSUL_RECORD * count;

        if (record[TERGYOSUL_TOKEN_KIND] == 0) {
            break;
        }
        place = record[TERGYOSUL_TOKEN_PLACE];
        count++;
    }
    printf("tokens: %lu, the last at line %lu, column %lu\n", (unsigned long)count, (unsigned long)TERGYOSUL_LINE(place),
           (unsigned long)TERGYOSUL_COLUMN(place));
}

/* What was written, or the entry for which nothing is. The result is the exit status. */
static int put_written(uint32_t number, const char *end)
{
    if (number != 0) {
        printf("not written: number %lu, entry %lu\n", (unsigned long)number, (unsigned long)written[1]);
        return 1;
    }
    fwrite(out, 1, written[TERGYOSUL_WRITE_LENGTH], stdout);
    printf("%s", end);
    return 0;
}

/* What was read, as a text. It may not be written: a name may stand on an adapter that is not listed. */
static int put_text(void)
{
    return put_written(tergyosul_write(text, text_length, second, second_length, sheet, sheet_length, party, primary, answer,
                                       TERGYOSUL_ANSWER_WORDS, out, TERGYOSUL_LEAST_BYTES, written,
                                       TERGYOSUL_WRITE_WORDS),
                       "\n");
}

/* What was read or converted, as rows, which end with LF. Conditions and most triggers have none. */
static int put_rows(void)
{
    return put_written(tergyosul_rows_back(sheet, sheet_length, party, primary, answer, TERGYOSUL_ANSWER_WORDS, out,
                                           TERGYOSUL_LEAST_BYTES, written, TERGYOSUL_WRITE_WORDS),
                       "");
}

/* The refusal, with the rule of two that is refused, if it is one of them alone. */
static void put_refusal(void)
{
    if (answer[TERGYOSUL_WHICH] != 0) {
        printf("the %s rule is ", either(answer[TERGYOSUL_WHICH], "first", "second"));
    }
    printf("refused: number %lu, line %lu, column %lu, detail %lu\n", (unsigned long)answer[0], (unsigned long)answer[1],
           (unsigned long)answer[2], (unsigned long)answer[3]);
}

static void put_entries(void)
{
    uint32_t i;

    printf("accepted: triggers %lu, conditions %lu\n", (unsigned long)answer[4], (unsigned long)answer[5]);
    for (i = 0; i < answer[4]; i++) {
        put_trigger(answer[TERGYOSUL_TRIGGERS_FROM + i], answer + TERGYOSUL_ROW * (1 + i));
    }
    for (i = 0; i < answer[5]; i++) {
        put_condition(answer[TERGYOSUL_CONDITIONS_FROM], answer + TERGYOSUL_ROW * (5 + i));
    }
}

static uint32_t join_rules(void)
{
    return tergyosul_join(text, text_length, second, second_length, sheet, sheet_length, topics, topics_length, party,
                          primary, words, TERGYOSUL_TOKEN_WORDS, others, TERGYOSUL_TOKEN_WORDS, answer,
                          TERGYOSUL_ANSWER_WORDS);
}

static uint32_t convert_rows(void)
{
    return tergyosul_rows(text, text_length, sheet, sheet_length, party, primary, answer, TERGYOSUL_ANSWER_WORDS);
}

static uint32_t read_rule(int is_shop)
{
    return (is_shop ? tergyosul_read_shop : tergyosul_read)(text, text_length, sheet, sheet_length, topics, topics_length,
                                                            party, primary, words, TERGYOSUL_TOKEN_WORDS, answer,
                                                            TERGYOSUL_ANSWER_WORDS);
}

/* Whether the first argument is this option. */
static int is_option(const char *option, int count, char **arguments)
{
    return count > 1 && strcmp(arguments[1], option) == 0;
}

int main(int count, char **arguments)
{
    const int is_shop = is_option("--shop", count, arguments);
    const int is_write = is_option("--write", count, arguments);
    const int is_to_rows = is_option("--to-rows", count, arguments);
    const int is_rows = is_option("--rows", count, arguments);
    const int is_join = is_option("--join", count, arguments);
    const int passed = is_shop + is_write + is_to_rows + is_rows + 2 * is_join;
    int has_party, has_topics;
    uint32_t number;

    /* from here on the option and the second rule are not counted */
    count -= passed;
    arguments += passed;
    has_party = count >= 5;
    has_topics = count == 4 || count == 6;
    if (count < 3 || count > 6 || (is_rows && has_topics) ||
        (has_party && (!byte_of(arguments[count - 2], &party) || !byte_of(arguments[count - 1], &primary)))) {
        fprintf(stderr, "usage: example [--shop | --write | --to-rows] RULE SHEET [TOPICS] [PARTY PRIMARY]\n"
                        "       example --join RULE RULE SHEET [TOPICS] [PARTY PRIMARY]\n"
                        "       example --rows ROWS SHEET [PARTY PRIMARY]\n");
        return 2;
    }
    if (!load(arguments[is_join ? 0 : 1], text, &text_length) ||
        (is_join && !load(arguments[1], second, &second_length)) || !load(arguments[2], sheet, &sheet_length) ||
        (has_topics && !load(arguments[3], topics, &topics_length))) {
        return 2;
    }
    if (!has_party) {
        primary = (uint8_t)tergyosul_sheet_primary(sheet, sheet_length);
    }
    number = is_join ? join_rules() : is_rows ? convert_rows() : read_rule(is_shop);
    if (number == TERGYOSUL_NO_ROOM) { /* not with an array of this length; answer was not written */
        fprintf(stderr, "there is no room for the answer\n");
        return 2;
    }
    if (number != 0) {
        put_refusal();
        return 1;
    }
    if (is_write) {
        return put_text();
    }
    if (is_to_rows) {
        return put_rows();
    }
    put_entries();
    if (is_rows) {
        return put_rows();
    }
    put_tokens(words);
    if (is_join) {
        put_tokens(others);
        return put_text();
    }
    return 0;
}
