/*
 * Tergyosul: the rule reader of the lighting controllers, for C.
 *
 * Link target/staticlib/libtergyosul.a, which `tools/staticlib` makes. Nothing is allocated and nothing is kept between
 * calls, so that calls on different arrays may run at the same time.
 *
 * A slice is passed as a pointer and a length. What the proofs cannot see is the caller's part: each pointer is not null
 * and points to as many elements as the length says (a length of 0 still wants a pointer that is not null: where there
 * are no topics the text's will do), the elements were written before, and an array that is written is apart from all
 * the others; those that are only read may be the same. A party and an adapter are 0 to 255: a larger number becomes
 * another one in a uint8_t, without a word from C, so whoever has them from outside tests them first.
 */
#ifndef TERGYOSUL_H
#define TERGYOSUL_H

#include <stddef.h>
#include <stdint.h>

#ifdef __cplusplus
extern "C" {
#endif

/*
 * The words that are lent for the tokens get one record for each token of the text, in its order. Record i begins at word
 * TERGYOSUL_RECORD * i, and enum tergyosul_record has the places of its words.
 */
#define TERGYOSUL_RECORD 5

/* The least length of these words: 1,024 records. With fewer the answer is refusal 2. */
#define TERGYOSUL_TOKEN_WORDS 5120

/* The words of a record, from its first word on. */
enum tergyosul_record {
    TERGYOSUL_TOKEN_KIND = 0,   /* 1 word, 2 string, 3 integer, 4 time, 5 duration, 6 decimal, 7 to 22 signs */
    TERGYOSUL_TOKEN_NUMBER = 1, /* an integer; minutes since midnight; milliseconds; a decimal times 10,000; else 0 */
    TERGYOSUL_TOKEN_START = 2,  /* the token's first byte in the text; of a string, the one behind its quote */
    TERGYOSUL_TOKEN_LENGTH = 3, /* how many bytes there are; of a string, inside its quotes */
    TERGYOSUL_TOKEN_PLACE = 4   /* where its first character stands */
};

/* The line and the column of a record's place, both from 1. The word is line * 65536 + column. */
#define TERGYOSUL_LINE(place) ((place) / 65536u)
#define TERGYOSUL_COLUMN(place) ((place) % 65536u)

/*
 * The length of an answer: nine rows of twelve words. Row 0 says how the reading went, rows 1 to 4 are the triggers and
 * rows 5 to 8 the conditions. Row r begins at word TERGYOSUL_ROW * r. Words that a row does not name are 0.
 *
 *   row 0:   number, line, column, detail, count of triggers, count of conditions
 *            An accepted text has four zeros and the counts; a refused one has the refusal and no entries.
 *            Of tergyosul_join then, from TERGYOSUL_WHICH on: the text that is refused, the text of each of the four
 *            triggers, the text of the conditions.
 *   entries: the kind, from the tables below, then the words that stand beside it. The rows of entries that are not in
 *            use are 0.
 *
 * What the words beside a kind are:
 *
 *   REF       adapter, number                      of a lamp, a group or a device
 *   INPUT     adapter, number, instance            of an input device
 *   NAME      start, length                        a range of the text's bytes, inside the quotes
 *   SELECTOR  1, adapter, number, instance         one instance of an input device
 *             2, adapter, group, type              an instance group; the type is TERGYOSUL_NO_TYPE where none is given
 *   EVENT     code, data                           the data is 0 except for a raw event
 *   TARGET    1, adapter, number                   a lamp
 *             2, adapter, number                   a group
 *             3, adapter, 0                        all lamps of an adapter
 *   BOUND     1, minutes since midnight, 0         a time of day
 *             2, SUN, OFFSET                       a solar event with an offset
 *   SUN       1 sunrise, 2 sunset
 *   OFFSET    milliseconds, of 32 bits in two's complement
 *   DAYS      one word, the days of a set          the sum of 1 for mon, 2 for tue, 4 for wed, 8 for thu, 16 for fri,
 *                                                  32 for sat and 64 for sun; never 0
 *   WAY       1 above, 2 below
 *   CMP       1 ==, 2 !=, 3 >=, 4 <=, 5 >, 6 <
 *   VALUE     kind, reading, a, b, c, low, high    seven words
 *             kind 1: a number; kind 2: a reading; kind 3: a reading with a number added
 *             reading: a code with the REF, INPUT or NAME beside it in a, b and c; 0 for kind 1
 *             low, high: the number, of 64 bits in two's complement; 0 for kind 2
 *   OPERAND   a VALUE, or 4, start, length         a number or a reading, or a text
 */
#define TERGYOSUL_ROW 12
#define TERGYOSUL_ANSWER_WORDS 108
#define TERGYOSUL_NO_TYPE 4294967295u

/*
 * Where in row 0 an answer of tergyosul_join says which text it speaks of: TERGYOSUL_FIRST, TERGYOSUL_SECOND, or 0.
 * The other calls leave these words 0.
 */
enum tergyosul_origin {
    TERGYOSUL_WHICH = 6,           /* the text that is refused; 0 for 51 and 52, and where none is */
    TERGYOSUL_TRIGGERS_FROM = 7,   /* to 10: the text of the trigger in rows 1 to 4; 0 for a row that is not in use */
    TERGYOSUL_CONDITIONS_FROM = 11 /* the text of all conditions, TERGYOSUL_FIRST; 0 where there are none */
};
#define TERGYOSUL_FIRST 1
#define TERGYOSUL_SECOND 2

/* The length of an answer of tergyosul_lex: number, line, column, count of the tokens. */
#define TERGYOSUL_LEX_WORDS 4

/*
 * The length of an answer of tergyosul_next_chain: number, line, column, detail, the count of the pieces, and from word
 * TERGYOSUL_CHAIN_PIECES on TERGYOSUL_MOST_PIECES pieces, those past the count 0.
 */
#define TERGYOSUL_CHAIN_WORDS 20
#define TERGYOSUL_CHAIN_COUNT 4
#define TERGYOSUL_CHAIN_PIECES 5
#define TERGYOSUL_MOST_PIECES 15

/*
 * The length of an answer of tergyosul_write: number, line, column, detail, and in word TERGYOSUL_WRITE_LENGTH how many
 * bytes are written.
 */
#define TERGYOSUL_WRITE_WORDS 5
#define TERGYOSUL_WRITE_LENGTH 4

/* The least length of the bytes that are lent to tergyosul_write for the text. With fewer the answer is refusal 54. */
#define TERGYOSUL_LEAST_BYTES 4096

/*
 * The least length of the bytes that are lent to tergyosul_rows_back for the rows, and the most that it writes. With fewer
 * than the least the answer is refusal 54. Its answer is as long as one of tergyosul_write, and laid out like it.
 */
#define TERGYOSUL_ROWS_LEAST_BYTES 512
#define TERGYOSUL_ROWS_MOST_BYTES 272

/*
 * The result of a call whose answer is too short: shorter than TERGYOSUL_ANSWER_WORDS, of tergyosul_lex than
 * TERGYOSUL_LEX_WORDS, of tergyosul_write and tergyosul_rows_back than TERGYOSUL_WRITE_WORDS, of tergyosul_next_chain
 * than TERGYOSUL_CHAIN_WORDS. If answer is too short, nothing is read and nothing is written. No refusal has this number.
 */
#define TERGYOSUL_NO_ROOM 4294967295u

/* The kinds of triggers, in rows 1 to 4. */
enum tergyosul_trigger {
    TERGYOSUL_INPUT_EVENT = 1,                        /* SELECTOR EVENT */
    TERGYOSUL_INPUT_OCCUPANCY = 2,                    /* INPUT, 1 occupied 2 vacant */
    TERGYOSUL_INPUT_LIGHT_CROSS = 3,                  /* INPUT WAY threshold */
    TERGYOSUL_INPUT_POSITION_CHANGE = 4,              /* INPUT */
    TERGYOSUL_INPUT_DEVICE_POWER_CYCLED = 5,          /* REF */
    TERGYOSUL_INPUT_DEVICE_MANUAL_CONFIG_CHANGED = 6, /* REF */
    TERGYOSUL_AT_TIME = 7,                            /* minutes since midnight, DAYS */
    TERGYOSUL_AT_SOLAR = 8,                           /* SUN OFFSET DAYS */
    TERGYOSUL_EVERY = 9,                              /* milliseconds */
    TERGYOSUL_LAMP_TURNS = 10,                        /* REF, 1 on 2 off */
    TERGYOSUL_LAMP_LEVEL_CROSS = 11,                  /* REF WAY threshold */
    TERGYOSUL_GROUP_BECOMES = 12,                     /* REF, 1 any_on 2 all_off */
    TERGYOSUL_SCENE_RECALLED = 13,                    /* adapter, scene */
    TERGYOSUL_DEVICE_ONLINE = 14,                     /* REF, 1 goes offline 2 comes online */
    TERGYOSUL_HCL_OVERRIDE = 15,                      /* TARGET, 1 starts 2 clears */
    TERGYOSUL_TIMER_FIRES = 16,                       /* NAME */
    TERGYOSUL_CONTROLLER_STARTS = 17,
    TERGYOSUL_CONTROLLER_BECOMES_ACTIVE = 18,
    TERGYOSUL_RULE_FAILS = 19,                        /* NAME */
    TERGYOSUL_HTTP_TRIGGER = 20,
    TERGYOSUL_MQTT_MESSAGE = 21                       /* NAME, the topic */
};

/* The kinds of conditions, in rows 5 to 8. */
enum tergyosul_condition {
    TERGYOSUL_IF_TIME_IN_RANGE = 1,          /* BOUND BOUND */
    TERGYOSUL_IF_SUN_IS = 2,                 /* 1 up 2 down */
    TERGYOSUL_IF_LAMP_IS = 3,                /* REF, 1 on 2 off */
    TERGYOSUL_IF_LAMP_LEVEL = 4,             /* REF CMP VALUE */
    TERGYOSUL_IF_LAMP_CCT = 5,               /* REF CMP VALUE */
    TERGYOSUL_IF_GROUP_STATE = 6,            /* REF, 1 any_on 2 all_off */
    TERGYOSUL_IF_INPUT_OCCUPANCY = 7,        /* INPUT, 1 occupied 2 vacant */
    TERGYOSUL_IF_INPUT_LIGHT = 8,            /* INPUT WAY VALUE */
    TERGYOSUL_IF_HCL_STATE = 9,              /* TARGET, 1 enabled 2 overridden */
    TERGYOSUL_IF_DEVICE_ONLINE = 10,         /* REF */
    TERGYOSUL_IF_RULE_ENABLED = 11,          /* NAME */
    TERGYOSUL_IF_LAST_FIRED_OLDER_THAN = 12, /* NAME milliseconds */
    TERGYOSUL_IF_TIMER_RUNNING = 13,         /* NAME */
    TERGYOSUL_IF_CONTROLLER_ACTIVE = 14,
    TERGYOSUL_IF_VAR_COMPARE = 15,           /* NAME CMP OPERAND */
    TERGYOSUL_IF_DAY_IN = 16                 /* DAYS */
};

/* The days of the week, as they are summed up in DAYS. */
enum tergyosul_day {
    TERGYOSUL_MON = 1,
    TERGYOSUL_TUE = 2,
    TERGYOSUL_WED = 4,
    TERGYOSUL_THU = 8,
    TERGYOSUL_FRI = 16,
    TERGYOSUL_SAT = 32,
    TERGYOSUL_SUN = 64,
    TERGYOSUL_EVERY_DAY = 127 /* all seven, as of a time without `on` */
};

/* The codes of input events. */
enum tergyosul_event {
    TERGYOSUL_EVENT_PRESS = 1,
    TERGYOSUL_EVENT_RELEASE = 2,
    TERGYOSUL_EVENT_SHORT_PRESS = 3,
    TERGYOSUL_EVENT_DOUBLE_PRESS = 4,
    TERGYOSUL_EVENT_LONG_PRESS_START = 5,
    TERGYOSUL_EVENT_LONG_PRESS_REPEAT = 6,
    TERGYOSUL_EVENT_LONG_PRESS_STOP = 7,
    TERGYOSUL_EVENT_BUTTON_FREE = 8,
    TERGYOSUL_EVENT_BUTTON_STUCK = 9,
    TERGYOSUL_EVENT_MOVEMENT = 10,
    TERGYOSUL_EVENT_NO_MOVEMENT = 11,
    TERGYOSUL_EVENT_ANY = 12,
    TERGYOSUL_EVENT_RAW = 13 /* with its data */
};

/* The codes of readings, with what stands in a, b and c. */
enum tergyosul_reading {
    TERGYOSUL_READ_LAMP_LEVEL = 1,            /* REF */
    TERGYOSUL_READ_LAMP_CCT = 2,              /* REF */
    TERGYOSUL_READ_LAMP_IS_ON = 3,            /* REF */
    TERGYOSUL_READ_LAMP_LAST_LEVEL = 4,       /* REF */
    TERGYOSUL_READ_GROUP_ANY_ON = 5,          /* REF */
    TERGYOSUL_READ_GROUP_ALL_OFF = 6,         /* REF */
    TERGYOSUL_READ_GROUP_MEMBER_COUNT = 7,    /* REF */
    TERGYOSUL_READ_INPUT_OCCUPIED = 8,        /* INPUT */
    TERGYOSUL_READ_INPUT_LIGHT = 9,           /* INPUT */
    TERGYOSUL_READ_INPUT_POSITION = 10,       /* INPUT */
    TERGYOSUL_READ_INPUT_LAST_EVENT_AGE = 11, /* INPUT */
    TERGYOSUL_READ_TIME_NOW = 12,
    TERGYOSUL_READ_TIME_HOUR = 13,
    TERGYOSUL_READ_TIME_MINUTE = 14,
    TERGYOSUL_READ_TIME_WEEKDAY = 15,
    TERGYOSUL_READ_SUN_RISE = 16,
    TERGYOSUL_READ_SUN_SET = 17,
    TERGYOSUL_READ_SUN_IS_UP = 18,
    TERGYOSUL_READ_EVENT_VALUE = 19,
    TERGYOSUL_READ_EVENT_DEVICE = 20,
    TERGYOSUL_READ_EVENT_INSTANCE = 21,
    TERGYOSUL_READ_EVENT_OPTION = 22,
    TERGYOSUL_READ_VAR = 23 /* NAME */
};

/* The pieces of which chains of conditions are made: each is the place of its word or sign in this order. */
enum tergyosul_piece {
    TERGYOSUL_PIECE_LAMP = 0,
    TERGYOSUL_PIECE_SUN = 1,
    TERGYOSUL_PIECE_TIME = 2,
    TERGYOSUL_PIECE_IS = 3,
    TERGYOSUL_PIECE_IN = 4,
    TERGYOSUL_PIECE_ON = 5,
    TERGYOSUL_PIECE_OFF = 6,
    TERGYOSUL_PIECE_UP = 7,
    TERGYOSUL_PIECE_DOWN = 8,
    TERGYOSUL_PIECE_SUNRISE = 9,
    TERGYOSUL_PIECE_SUNSET = 10,
    TERGYOSUL_PIECE_LEVEL = 11,
    TERGYOSUL_PIECE_AND = 12,
    TERGYOSUL_PIECE_0 = 13,
    TERGYOSUL_PIECE_63 = 14,
    TERGYOSUL_PIECE_64 = 15,
    TERGYOSUL_PIECE_OPEN = 16,   /* ( */
    TERGYOSUL_PIECE_CLOSE = 17,  /* ) */
    TERGYOSUL_PIECE_POINT = 18,  /* . */
    TERGYOSUL_PIECE_POINTS = 19, /* .. */
    TERGYOSUL_PIECE_EQUAL = 20,  /* == */
    TERGYOSUL_PIECE_PLUS = 21,
    TERGYOSUL_PIECE_MINUS = 22
};

/*
 * Reads a rule text with a name sheet, for a party. The sheet's `party` rows say whose an adapter is; one without such a
 * row is party 0's. The call sees the party's adapters and the rows on them, and nothing of another's: a name that only
 * another has is not found, and another's adapter is not listed. What names no adapter is on primary, the call's own
 * primary adapter, which stands in for the sheet's. It need not be listed; if it is not the party's the call is refused
 * with 53, at 0:0. The sheet's lines end with LF or CR LF, and a name runs to the end of its line, commas included.
 *
 * topics are those of earlier rules, one a line, LF between; where there are none the length is 0. They may be of any
 * length and content: lines are taken as they come, with a CR if they have one, and empty ones count for nothing. A topic
 * of the text that is neither lent nor named earlier in the text is new, and is refused with 66, at its word `mqtt`, where
 * eight or more different ones are lent or named earlier. No number of lent topics is refused by itself.
 *
 * The result is 0, or the number of the refusal, or TERGYOSUL_NO_ROOM. The whole answer goes to answer, and the records
 * of the tokens go to words, as above; with refusals 1 to 4 and 53 these are left as they are. An argument of `input(`
 * that sets one already set is refused with 63, at its first token. Where a day is read, a word that is none of mon, tue,
 * wed, thu, fri, sat and sun is refused with 50, at that word. `is` behind the topic of an `mqtt` trigger is refused with
 * 40, at that `is`: no other form gets this number.
 */
uint32_t tergyosul_read(const uint8_t *text, size_t text_length,
                        const uint8_t *sheet, size_t sheet_length,
                        const uint8_t *topics, size_t topics_length,
                        uint8_t party, uint8_t primary,
                        uint32_t *words, size_t words_length,
                        uint32_t *answer, size_t answer_length);

/*
 * The archive loader's call: a repeated argument of `input(` replaces the earlier one. Everything else is as with
 * tergyosul_read: where that one's answer is not refusal 63, this one's is the same, and so are the words.
 */
uint32_t tergyosul_read_archive(const uint8_t *text, size_t text_length,
                                const uint8_t *sheet, size_t sheet_length,
                                const uint8_t *topics, size_t topics_length,
                                uint8_t party, uint8_t primary,
                                uint32_t *words, size_t words_length,
                                uint32_t *answer, size_t answer_length);

/*
 * The shop's call: rules that shop staff may edit have only a safe part of the language. On an accepted reading each lamp,
 * group, device and input device has to be named; a reference by its number is refused with 57, at that number. An instance
 * group, a scene, an instance, a type and an adapter stay numbers. `broadcast` is refused with 58, at that word, and a
 * reading of `event` with 59, at the word `event`; the event of a trigger, as `is event(data=5)`, is none. Of several the
 * earliest place decides. The detail is 0, and the words have the records of all tokens. Everything else is as with
 * tergyosul_read: what that one refuses this one refuses alike, and what this one accepts has the same answer there.
 */
uint32_t tergyosul_read_shop(const uint8_t *text, size_t text_length,
                             const uint8_t *sheet, size_t sheet_length,
                             const uint8_t *topics, size_t topics_length,
                             uint8_t party, uint8_t primary,
                             uint32_t *words, size_t words_length,
                             uint32_t *answer, size_t answer_length);

/*
 * Reads two rule texts with one name sheet, each as tergyosul_read does, and joins them: the first's triggers, then those of
 * the second that are not yet there, repeats dropped throughout, and the first's conditions. Two entries are the same if
 * they are so word for word, but for names and other strings, which are compared by their bytes, each in its own text; so
 * `every 1h` and `every 60m` are the same. Row 0 says which text each entry is taken from, where its names stand. The topics
 * that the first text names count as earlier ones for the second.
 *
 * The result is 0, or the number of the refusal, or TERGYOSUL_NO_ROOM. What tergyosul_read refuses of the first text is
 * refused first, with TERGYOSUL_FIRST in the word TERGYOSUL_WHICH; then what it refuses of the second, with
 * TERGYOSUL_SECOND. Then, with 0 in that word, both at 0:0 and without entries:
 *
 *   51   the conditions of the two differ, in entries or order; also where only one text has any
 *   52   more than four triggers are left
 *
 * words get the records of the first text's tokens and others those of the second's, each TERGYOSUL_TOKEN_WORDS long at
 * least. If the first text is refused, others are left as they are, and with refusals 1 to 4 and 53 of a text so are its
 * words; with 51 and 52 both have all their records. The two arrays are apart from each other; the texts may be the same.
 */
uint32_t tergyosul_join(const uint8_t *first, size_t first_length,
                        const uint8_t *second, size_t second_length,
                        const uint8_t *sheet, size_t sheet_length,
                        const uint8_t *topics, size_t topics_length,
                        uint8_t party, uint8_t primary,
                        uint32_t *words, size_t words_length,
                        uint32_t *others, size_t others_length,
                        uint32_t *answer, size_t answer_length);

/*
 * Writes the two lists of a rule out as a text. lists are the words of an accepted answer of tergyosul_read, tergyosul_join
 * or tergyosul_rows, or words laid out like these: the counts and the texts of the entries in row 0, and the rows of entries.
 * The names of an entry stand in first or in second, as row 0 says by TERGYOSUL_FIRST and TERGYOSUL_SECOND; 0 counts as
 * TERGYOSUL_FIRST, so that for an answer of tergyosul_read first is the text that was read, and second may have the length
 * 0. Rows past a count, and the other words of row 0, are not looked at; a word past the end of lists counts as 0.
 *
 * What tergyosul_read gives of the text that is written, with the same sheet, party and primary and no topics, has the
 * same lists, but for where names and other strings stand: their bytes are the same. Between two tokens there is one space,
 * none at either end. References are numbers, with `adapter` only where the adapter is not primary; arguments of `input` are
 * named, and types are numbers. A duration above 1,000,000,000 ms is in seconds with three places, any other in ms. Days are
 * written singly from mon, behind a time only if they are fewer than seven.
 *
 * The result is 0, or the number of the refusal, or TERGYOSUL_NO_ROOM. The text goes to the front of out, and its length to
 * answer, 0 with a refusal; the other bytes of out, all of them with a refusal, are left as they are, and so are the words
 * of answer behind the first TERGYOSUL_WRITE_WORDS. No text is too long for TERGYOSUL_LEAST_BYTES. The column and the
 * detail of a refusal are 0; it is the first of
 *
 *   3    the sheet is not well formed; the line is its first bad one
 *   53   primary is not the party's, at 0:0
 *   54   out is shorter than TERGYOSUL_LEAST_BYTES, at 0:0
 *   55   there are no triggers, or more than four, or more than four conditions, at 0:0; else an entry that no text gives,
 *        whatever its sheet: words that are no entry's row, a text other than the two, a name outside its text or of bytes
 *        that such a name cannot have, a number out of its range
 *   56   an entry whose adapter would be written and is not listed for the party, or a broadcast not on primary
 *
 * For 55 and 56 the line is the ordinal of the first such entry, from 1, the conditions behind the triggers.
 */
uint32_t tergyosul_write(const uint8_t *first, size_t first_length,
                         const uint8_t *second, size_t second_length,
                         const uint8_t *sheet, size_t sheet_length,
                         uint8_t party, uint8_t primary,
                         const uint32_t *lists, size_t lists_length,
                         uint8_t *out, size_t out_length,
                         uint32_t *answer, size_t answer_length);

/*
 * Converts rows of the previous owners' archives to triggers, with a name sheet, for a party. A row is `K,name,A,word`:
 *
 *   lamp,Till,1,on          K and its words: lamp (on, off), group (any_on, all_off), device (offline, online)
 *   group,Hall,,all_off     A is an adapter, 0 to 255 without leading zeros, or empty where none is named
 *
 * A name has 1 to 48 bytes of any kind, but no quote, comma, CR or LF. Every row ends with LF, the last one, too. A row
 * gives one trigger, in the rows' order, for what has that name on A, or on any of the party's adapters where A is empty:
 * what `lamp("Till", adapter=1)` and `lamp("Till")` refer to in a rule. primary plays no part but in 53.
 *
 * The result is 0, or the number of the refusal, or TERGYOSUL_NO_ROOM. The whole answer goes to answer, laid out as one of
 * tergyosul_read, with one to four triggers and no conditions. The column of a refusal is 0; it is the first of
 *
 *   3        the sheet is not well formed; the line is its first bad one
 *   53       primary is not the party's, at 0:0
 *   60       there is no row, at 0:0; else a malformed row, or a fifth one, before any name is looked up
 *   25       A is named and is not listed for the party
 *   31       no row of that kind in the sheet has the name
 *   32       none on A has it; the detail is the adapter of the first one elsewhere
 *   33, 34   several have it, on one adapter or on several; the detail is their count
 *
 * For 60 the line is the first such row, from 1. For 25 and 31 to 34 it is the first row that any of them is about.
 */
uint32_t tergyosul_rows(const uint8_t *rows, size_t rows_length,
                        const uint8_t *sheet, size_t sheet_length,
                        uint8_t party, uint8_t primary,
                        uint32_t *answer, size_t answer_length);

/*
 * Converts a list of triggers back to such rows. lists are the words of an accepted answer of tergyosul_read, tergyosul_join
 * or tergyosul_rows, or words laid out like these. Each trigger is one that a row says: a lamp turns on or off, a group
 * becomes any_on or all_off, a device goes offline or comes online; and there are no conditions. The texts of the entries,
 * and rows past the count, are not looked at; a word past the end of lists counts as 0.
 *
 * The name and A of a row are those of the first sheet row for that lamp, group or device which is the only one of its kind
 * and name on its adapter, has no comma in its name and is on an adapter that is listed for the party. A is always
 * written, also where it is primary. What tergyosul_rows gives of the rows, with the same sheet, party and primary, is the
 * same list.
 *
 * The result is 0, or the number of the refusal, or TERGYOSUL_NO_ROOM. The rows go to the front of out, each with LF at its
 * end, and their length to answer, 0 with a refusal; the other bytes of out, all of them with a refusal, are left as they
 * are, and so are the words of answer behind the first TERGYOSUL_WRITE_WORDS. No rows are longer than
 * TERGYOSUL_ROWS_MOST_BYTES. The column and the detail of a refusal are 0; it is the first of
 *
 *   3    the sheet is not well formed; the line is its first bad one
 *   53   primary is not the party's, at 0:0
 *   54   out is shorter than TERGYOSUL_ROWS_LEAST_BYTES, at 0:0
 *   61   there are no triggers, or more than four, at 0:0; else a trigger that no row says, or words that are no trigger's;
 *        else, where the count of conditions is not 0, the first condition, whatever its words are
 *   62   a lamp, group or device for which the sheet has no row as above
 *
 * For 61 and 62 the line is the ordinal of the first such entry, from 1, a condition's behind the triggers.
 */
uint32_t tergyosul_rows_back(const uint8_t *sheet, size_t sheet_length,
                             uint8_t party, uint8_t primary,
                             const uint32_t *lists, size_t lists_length,
                             uint8_t *out, size_t out_length,
                             uint32_t *answer, size_t answer_length);

/*
 * The sheet's own primary adapter, which its first line names: 0 to 255, and 0 where it names none. A call that is to go
 * by it passes it on as its primary. Only the first line is looked at: whether the sheet is well formed, and whether that
 * adapter is the party's, the call says.
 */
uint32_t tergyosul_sheet_primary(const uint8_t *sheet, size_t sheet_length);

/*
 * Lexes a text alone: questions 1, 2 and 4, then 10 to 19. The records of its tokens go to words, as above; with refusals 1,
 * 2 and 4 these are left as they are. The result is 0, or the number of the refusal, or TERGYOSUL_NO_ROOM; answer gets number,
 * line, column and the count of the tokens. On acceptance line and column are those of the text's end.
 */
uint32_t tergyosul_lex(const uint8_t *text, size_t text_length,
                       uint32_t *words, size_t words_length,
                       uint32_t *answer, size_t answer_length);

/*
 * Every chain of one to four conditions, joined by `and`, that is accepted behind `if` and has at most
 * TERGYOSUL_MOST_PIECES tokens, all of them pieces as above: 636 in all, shorter ones first, then in the order of the
 * pieces, token by token. pieces is a start: with a length of 0 the answer is the first chain; with one of the list it is
 * the next, or a count of 0 where none follows. A start that has pieces and is not in the list, as one with a number above
 * 22 or with more than TERGYOSUL_MOST_PIECES, is refused with 67, at 0:0, and a count of 0. The result is 0, or 67, or
 * TERGYOSUL_NO_ROOM.
 */
uint32_t tergyosul_next_chain(const uint8_t *pieces, size_t pieces_length,
                              uint32_t *answer, size_t answer_length);

#ifdef __cplusplus
}
#endif

#endif
