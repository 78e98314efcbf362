/* Calls each function of the archive: document 01's worked example word for word, every refusal, and what stays unwritten. */
#include "lent.h"
#include "oskuramos.h"

#include <stdio.h>
#include <stdlib.h>
#include <string.h>

static int failures = 0;

static void check(bool holds, const char *what) {
    printf("%s %s\n", holds ? "ok    " : "FAILED", what);
    if (!holds) failures++;
}

static bool is(oskuramos_answer a, uint32_t number, uint32_t first, uint32_t second, uint32_t third) {
    return a.number == number && a.first == first && a.second == second && a.third == third;
}

/* ---- document 01's worked example (K1) */
static const uint8_t table[17] = {0x2A, 0, 1, 0, 2, 0x64, 0, 2, 0, 0x60, 0x36, 0, 0, 0xDC, 0x14, 0, 1};
static const uint8_t blob[26] = {0x2A, 0,    0, 0,    0,    0, 0,    0,    0,    0,    0x31, 5,    0xFE,
                                 0x98, 0,    0xFE, 0x64, 0, 0x60, 0xFF, 0xFF, 0xDC, 2, 0x41, 0,    0xFD};
static const uint32_t control_rows[16] = {0x98, 1, 0, 9, 1, 0, 0, OSKURAMOS_NO_PARENT, 0x64, 0, 23, 2, 1, 2, 1, 0};
static const uint32_t property_rows[18] = {0x8031, 2, 5, 0, 11, 1, 0x36, 2, 0xFFFFFFFF, 0, 19, 2, 0x14, 6, 0, 0, 23, 2};

static oskuramos_answer read_example(words *c, size_t controls_length, words *p, size_t properties_length) {
    return oskuramos_read_blob(table, sizeof table, blob, sizeof blob, lend_words(c), controls_length, lend_words(p), properties_length);
}

static bool example_read(size_t controls_length, size_t properties_length) {
    words c, p;
    oskuramos_answer a = read_example(&c, controls_length, &p, properties_length);
    return is(a, 0, 2, 3, 1) && memcmp(c.word + GUARD, control_rows, sizeof control_rows) == 0 &&
           memcmp(p.word + GUARD, property_rows, sizeof property_rows) == 0 && words_kept(&c, 16) && words_kept(&p, 18);
}

static void worked_example(void) {
    check(example_read(16, 18), "K1 with room for its rows: each word, and the guards");
    check(example_read(21, 23), "K1 with five words more: no row fits there, and they stay");
    check(example_read(ROOM, ROOM), "K1 with much room: rows beyond the count stay");
}

/* The lines of document 01's listing that need names, from the rows and the library alone. */
static void print_name(oskuramos_answer a, const uint8_t *name) { printf(" %.*s", a.first > 0 ? (int)a.first : 1, a.first > 0 ? (const char *)name : "-"); }

/* A surrogate pair is one character. */
static uint32_t characters(uint32_t start, uint32_t length) {
    uint32_t count = 0;
    for (uint32_t i = 1; i < length; i += 2) count += (blob[start + i] & 0xFC) != 0xD8;
    return count;
}

static void print_control(uint32_t n, const uint32_t *row) {
    printf("C %u %04X", n, row[0]);
    uint8_t type[OSKURAMOS_NAME_ROOM];
    print_name(oskuramos_control_type_name((uint16_t)row[0], type, sizeof type), type);
    oskuramos_part part = oskuramos_control_name(blob, sizeof blob, NULL, 0, row[1], row[2], row[3]);
    if (row[1] == OSKURAMOS_NAME_NUMBERED) printf(" -");
    else if (row[1] == OSKURAMOS_NAME_LOOSE) printf(" %ub", part.length);
    else printf(" %u", characters(part.start, part.length));
    printf(" %u %u %u", row[4], row[5], row[OSKURAMOS_CONTROL_LEVEL]);
    if (row[OSKURAMOS_CONTROL_PARENT] == OSKURAMOS_NO_PARENT) printf(" -\n");
    else printf(" %u\n", row[OSKURAMOS_CONTROL_PARENT]);
}

static void print_property(uint32_t n, const uint32_t *row) {
    printf("P %u %04X", n, row[0]);
    uint8_t name[OSKURAMOS_NAME_ROOM];
    print_name(oskuramos_value_name(row[1], (uint16_t)row[0], name, sizeof name), name);
    if (row[1] == OSKURAMOS_SHORT) printf(" short %d\n", (int)(int32_t)row[2]);
    else if (row[1] == OSKURAMOS_TEXT) printf(" text %u\n", characters(row[4], row[5]));
    else printf(" mark %u\n", row[1]);
}

static void listing(void) {
    words c, p;
    oskuramos_answer a = read_example(&c, ROOM, &p, ROOM);
    printf("answer %u %u %u %u\n", a.number, a.first, a.second, a.third);
    for (uint32_t i = 0; i < a.first; i++) print_control(i, c.word + GUARD + i * OSKURAMOS_CONTROL_WORDS);
    for (uint32_t i = 0; i < a.second; i++) print_property(i, p.word + GUARD + i * OSKURAMOS_PROPERTY_WORDS);
}

/* ---- refusals of a Blob */
static bool blob_refused(const uint8_t *t, size_t t_length, const uint8_t *s, size_t s_length, uint32_t number) {
    words c, p;
    oskuramos_answer a = oskuramos_read_blob(t, t_length, s, s_length, lend_words(&c), ROOM, lend_words(&p), ROOM);
    return is(a, number, 0, 0, 0) && words_kept(&c, 0) && words_kept(&p, 0);
}

static bool example_lacks_room(size_t controls_length, size_t properties_length, uint32_t number) {
    words c, p;
    oskuramos_answer a = read_example(&c, controls_length, &p, properties_length);
    return is(a, number, 2, 3, 1) && words_kept(&c, 0) && words_kept(&p, 0);
}

/* Zeros are properties of 18 bytes each from 14 on, in the later layout. */
static bool longest_counted(const uint8_t *large) {
    oskuramos_answer a = oskuramos_read_blob(table, sizeof table, large, OSKURAMOS_LONGEST, NULL, 0, NULL, 0);
    return is(a, 7, 0, 932066, 932066);
}

static void blob_refusals(const uint8_t *large) {
    check(blob_refused(table, sizeof table, blob, sizeof blob - 1, 4), "4 for a Blob whose last byte is missing");
    check(blob_refused(table, sizeof table, large, OSKURAMOS_LONGEST + 1, 5), "5 for a Blob of 16,777,217 bytes");
    check(longest_counted(large), "not 5 for a Blob of 16,777,216 bytes: its 932,066 properties are counted");
    check(blob_refused(table, sizeof table - 1, large, OSKURAMOS_LONGEST + 1, 5), "5 before 8");
    check(example_lacks_room(15, ROOM, 6), "6 for controls that lack a word");
    check(example_lacks_room(ROOM, 17, 7), "7 for properties that lack a word");
    check(example_lacks_room(15, 17, 6), "6 before 7");
    check(example_lacks_room(0, 0, 6), "6 where nothing is lent");
    check(blob_refused(table, sizeof table - 1, blob, sizeof blob, 8), "8 for a table whose last byte is missing");
    check(blob_refused(table, sizeof table - 1, blob, 1, 8), "8 before 4");
}

/* ---- a reader for each layout. The later stream begins with another byte than the table and has an object with one property, of id 7. */
static const uint8_t later[32] = {0x2B, 0, 0, 0, 0, 0, 0, 0, 0, 0, 0, 0, 0, 0, 7, 0, 1, 0, 0, 0, 0, 0, 0, 0, 0, 0, 0, 0, 253, 0, 0, 0};
static const uint32_t later_rows[6] = {7, 1, 0, 0, 28, 0};

static bool answers_2000(const uint8_t *t, size_t t_length, const uint8_t *s, size_t s_length, size_t room, oskuramos_answer due) {
    words c, p;
    oskuramos_answer a = oskuramos_read_2000(t, t_length, s, s_length, lend_words(&c), room, lend_words(&p), room);
    return is(a, due.number, due.first, due.second, due.third) && words_kept(&c, 0) && words_kept(&p, 0);
}

static bool answers_later(uint32_t layout, const uint8_t *s, size_t s_length, size_t room, oskuramos_answer due) {
    words c, p;
    oskuramos_answer a = oskuramos_read_later(layout, s, s_length, lend_words(&c), room, lend_words(&p), room);
    return is(a, due.number, due.first, due.second, due.third) && words_kept(&c, 0) && words_kept(&p, 0);
}

static bool example_read_2000(void) {
    words c, p;
    oskuramos_answer a = oskuramos_read_2000(table, sizeof table, blob, sizeof blob, lend_words(&c), ROOM, lend_words(&p), ROOM);
    return is(a, 0, 2, 3, 1) && memcmp(c.word + GUARD, control_rows, sizeof control_rows) == 0 &&
           memcmp(p.word + GUARD, property_rows, sizeof property_rows) == 0 && words_kept(&c, 16) && words_kept(&p, 18);
}

static bool later_read(uint32_t layout) {
    words c, p;
    oskuramos_answer a = oskuramos_read_later(layout, later, sizeof later, lend_words(&c), ROOM, lend_words(&p), ROOM);
    return is(a, 0, 0, 1, 1) && memcmp(p.word + GUARD, later_rows, sizeof later_rows) == 0 && words_kept(&c, 0) && words_kept(&p, 6);
}

static void readers(const uint8_t *large) {
    static const oskuramos_answer none = {0, 0, 0, 0}, no_reading = {4, 0, 0, 0}, long_one = {5, 0, 0, 0}, bad_table = {8, 0, 0, 0}, other = {15, 0, 0, 0};
    static const oskuramos_answer six = {6, 2, 3, 1}, seven = {7, 0, 1, 1};
    check(example_read_2000(), "read_2000 of K1: each word, and the guards");
    check(answers_2000(table, sizeof table, later, sizeof later, ROOM, other), "15 of read_2000 for a later stream");
    check(answers_2000(table, sizeof table, blob, 0, ROOM, other), "15 of read_2000 for an empty stream");
    check(answers_2000(table, sizeof table - 1, later, sizeof later, ROOM, bad_table), "8 before 15");
    check(answers_2000(table, sizeof table, large, OSKURAMOS_LONGEST + 1, ROOM, long_one), "5 of read_2000 before 15");
    check(answers_2000(table, sizeof table, blob, sizeof blob - 1, ROOM, no_reading), "4 of read_2000 for a Blob whose last byte is missing");
    check(answers_2000(table, sizeof table, blob, sizeof blob, 15, six), "6 of read_2000, with the counts");
    check(later_read(0x2A), "read_later: each word, and the guards");
    check(later_read(0x12B), "read_later with a number above 255 whose low byte is the first byte");
    check(answers_later(0x2A, blob, sizeof blob, ROOM, other), "15 of read_later for an Access 2000 stream");
    check(answers_later(0x2B, later, sizeof later, 5, other), "15 of read_later before 7");
    check(answers_later(0, large, OSKURAMOS_LONGEST + 1, ROOM, long_one), "5 of read_later before 15");
    check(answers_later(0x2A, later, sizeof later, 5, seven), "7 of read_later, with the counts");
    check(answers_later(0, blob, 0, ROOM, none), "0 of read_later for an empty stream, whatever the layout byte");
}

/* ---- TypeInfo: a header with a count, then one entry with two names */
static void type_info_stream(uint8_t s[48], uint8_t count) {
    static const uint8_t magic[4] = {0xF7, 0xEA, 0xCD, 0xAC};
    memset(s, 0, 48);
    memcpy(s, magic, 4);
    s[12] = count;
    s[32] = 0x6D;
    s[36] = 3;
    memcpy(s + 40, "a\0Text\0", 8);
}

static bool info_answers(const uint8_t *s, size_t s_length, size_t room, uint32_t number, uint32_t first) {
    words r;
    oskuramos_answer a = oskuramos_read_type_info(s, s_length, lend_words(&r), room);
    return is(a, number, first, 0, 0) && words_kept(&r, 0);
}

/* the first bytes of the stream are read as one entry, whose name is this */
static bool info_read(const uint8_t *s, size_t s_length, uint32_t start, uint32_t length, uint32_t cut) {
    const uint32_t row[OSKURAMOS_TYPE_INFO_WORDS] = {0x6D, 3, start, length, cut};
    words r;
    oskuramos_answer a = oskuramos_read_type_info(s, s_length, lend_words(&r), ROOM);
    return is(a, 0, 1, 0, 0) && memcmp(r.word + GUARD, row, sizeof row) == 0 && words_kept(&r, OSKURAMOS_TYPE_INFO_WORDS);
}

static void type_info(const uint8_t *large) {
    uint8_t s[48];
    type_info_stream(s, 1);
    check(info_read(s, 48, 42, 4, 0), "TypeInfo of one entry: each word, and what stands beyond");
    check(info_read(s, 45, 42, 3, 1), "1 in the last word: cut within the second name");
    check(info_read(s, 41, 40, 1, 1), "1 in the last word: the first name's NUL is lost");
    check(info_read(s, 42, 40, 1, 0), "0 in the last word: cut right after the first name's NUL");
    check(info_answers(s, 31, ROOM, 1, 0), "1 for TypeInfo of 31 bytes");
    check(info_answers(large, OSKURAMOS_LONGEST + 1, ROOM, 5, 0), "5 for TypeInfo of 16,777,217 bytes");
    check(info_answers(large, OSKURAMOS_LONGEST, ROOM, 2, 0), "not 5 for TypeInfo of 16,777,216 bytes");
    check(info_answers(s, 48, OSKURAMOS_TYPE_INFO_WORDS - 1, 6, 1), "6 for rows that lack a word");
    type_info_stream(s, 3);
    check(info_answers(s, 48, ROOM, 3, 0), "3 for a count of 3 in 48 bytes");
    s[0] = 0xF6;
    check(info_answers(s, 48, ROOM, 2, 0), "2 for another first byte, before 3");
    check(info_answers(s, 31, ROOM, 1, 0), "1 before 2");
}

/* ---- comma-separated text: five fields, the third empty, the fourth with a comma, a quote and CR LF */
static const char sheet[] = "1,0064,,\"a,\"\"\r\n\",e\r\n";
static const uint32_t sheet_rows[10] = {0, 1, 1, 4, 5, 0, 5, 5, 10, 1};

static bool sheet_read(size_t length, size_t fields_length, size_t out_length) {
    words f;
    bytes o;
    oskuramos_answer a = oskuramos_read_csv((const uint8_t *)sheet, length, lend_words(&f), fields_length, lend_bytes(&o), out_length);
    return is(a, 0, 11, 5, 0) && memcmp(f.word + GUARD, sheet_rows, sizeof sheet_rows) == 0 && memcmp(o.byte + GUARD, "10064a,\"\r\ne", 11) == 0 &&
           words_kept(&f, 10) && bytes_kept(&o, 11);
}

static bool sheet_refused(const char *text, size_t fields_length, size_t out_length, uint32_t number) {
    words f;
    bytes o;
    oskuramos_answer a = oskuramos_read_csv((const uint8_t *)text, strlen(text), lend_words(&f), fields_length, lend_bytes(&o), out_length);
    return is(a, number, 0, 0, 0) && words_kept(&f, 0) && bytes_kept(&o, 0);
}

static void sheets(void) {
    check(sheet_read(sizeof sheet - 1, 10, 11), "comma-separated text in the room that it needs: rows, bytes and the guards");
    check(sheet_read(sizeof sheet - 3, ROOM, ROOM), "without its last CR LF, in much room: the same, and all else stays");
    check(sheet_read(sizeof sheet - 1, 11, 12), "a word and a byte more: both stay");
    check(sheet_refused(sheet, 9, 11, 13) && sheet_refused(sheet, 10, 10, 13), "13 for a row or a byte too little, and nothing is written");
    check(sheet_refused("a,b,c,d", 0, 0, 14) && sheet_refused("a,b,c,d,e\n", ROOM, ROOM, 14), "14 for four fields, before 13, and for LF alone");
    check(sheet_refused("a,b,c,d,e,f", ROOM, ROOM, 14) && sheet_refused("a,b,c,d,\"e", ROOM, ROOM, 14), "14 for six fields, and for an open quote");
}

/* ---- controls paired with TypeInfo: "Odd" as UTF-16 at 0, "odd" as bytes at 6; in TypeInfo's stream "ODD", "CONTROL_1" and "o" */
static const uint8_t control_names[9] = {'O', 0, 'd', 0, 'd', 0, 'o', 'd', 'd'};
static const uint8_t info_names[] = "ODDCONTROL_1o";
static const uint32_t infos[20] = {0x6E, 0, 0, 3, 1, 0x6D, 1, 0, 3, 0, 0x6F, 2, 3, 9, 0, 0x70, 3, 0, 3, 0};

/* Four rows of these marks, starts and lengths; all other words are numbers of their own. */
static void rows_to_pair(uint32_t *row) {
    static const uint32_t name[12] = {0, 0, 6, 1, 1, 99, 2, 6, 3, 0, 0, 5};
    for (size_t i = 0; i < 4; i++) memcpy(row + i * OSKURAMOS_CONTROL_WORDS + OSKURAMOS_CONTROL_NAME_MARK, name + 3 * i, 12);
}

static oskuramos_answer paired(uint32_t *rows, size_t length, uint32_t count, uint32_t info_count) {
    return oskuramos_pair(control_names, sizeof control_names, rows, length, count, info_names, sizeof info_names - 1, infos, 20, info_count);
}

/* The types that four rows get; every other word stays, the type of the fourth too. */
static bool pairs_as(uint32_t count, const uint32_t types[4]) {
    words r;
    uint32_t before[WHOLE], *rows = lend_words(&r);
    rows_to_pair(rows);
    memcpy(before, r.word, sizeof before);
    oskuramos_answer a = paired(rows, 4 * OSKURAMOS_CONTROL_WORDS + 3, count, 4);
    for (size_t i = 0; i < count; i++) before[GUARD + i * OSKURAMOS_CONTROL_WORDS] = types[i] != 0 ? types[i] : before[GUARD + i * OSKURAMOS_CONTROL_WORDS];
    return is(a, 0, 0, 0, 0) && memcmp(before, r.word, sizeof before) == 0;
}

static bool refused_11(uint32_t word, uint32_t value, size_t length, uint32_t count, uint32_t info_count) {
    words r;
    uint32_t before[WHOLE], *rows = lend_words(&r);
    rows_to_pair(rows);
    if (word < length) rows[word] = value;
    memcpy(before, r.word, sizeof before);
    oskuramos_answer a = paired(rows, length, count, info_count);
    return is(a, 11, 0, 0, 0) && memcmp(before, r.word, sizeof before) == 0;
}

static void pairings(void) {
    const uint32_t types[4] = {0x6D, 0x6F, 0x6D, 0}, none = UINT32_MAX;
    check(pairs_as(4, types), "four rows paired: the first row of the name that isn't cut, a label, bytes, and none for an odd length");
    check(pairs_as(2, types), "two of four rows counted: the others stay");
    check(pairs_as(0, types), "no row counted: all stay");
    check(refused_11(none, 0, 31, 4, 4), "11 for more control rows than lent");
    check(refused_11(none, 0, 32, 4, 5), "11 for more TypeInfo rows than lent");
    check(refused_11(OSKURAMOS_CONTROL_NAME_MARK, 3, 32, 4, 4), "11 for a mark of 3");
    check(refused_11(OSKURAMOS_CONTROL_NAME_LENGTH, 10, 32, 4, 4), "11 for a name outside the stream, before any row is set");
    check(refused_11(OSKURAMOS_CONTROL_NAME_START, UINT32_MAX, 32, 4, 4), "11 for a start whose sum with the length wraps in 32 bits");
}

/* ---- the rules of panels: a Detail "D" with a text box that has a name, a source (code 0xE0) and a place (code 0x60, the last two bytes but one).
   The older table lacks the source's code; the place is tied to Left, in the other table to Width. */
static const uint8_t panel_older[17] = {0x2A, 0, 1, 0, 2, 0x6D, 0, 2, 0, 0x60, 0x36, 0, 0, 0xDC, 0x14, 0, 1};
static const uint8_t panel_newer[21] = {0x2A, 0, 1, 0, 2, 0x6D, 0, 3, 0, 0x60, 0x36, 0, 0, 0xDC, 0x14, 0, 1, 0xE0, 0x1B, 0, 1};
static const uint8_t panel_width[21] = {0x2A, 0, 1, 0, 2, 0x6D, 0, 3, 0, 0x60, 0x96, 0, 0, 0xDC, 0x14, 0, 1, 0xE0, 0x1B, 0, 1};
static const uint8_t panel[32] = {0x2A, 0,    0, 0,    0, 0, 0,    0, 0,    0, 0xFE, 0x98, 0, 0xDF, 2, 0x44,
                                  0,    0xFE, 0x6D, 0, 0xDC, 2, 0x41, 0, 0xE0, 2, 0x42, 0, 0x60, 5, 0xFF, 0xFD};
static const uint32_t panel_rows[16] = {0x98, 0, 15, 2, 0, 1, 0, OSKURAMOS_NO_PARENT, 0x6D, 0, 22, 2, 1, 3, 1, 0};

/* The verdict on a stream, and that the rows stand there for yes and for no. */
static bool judged(const uint8_t *t, size_t t_length, const uint8_t *s, uint32_t yes, uint32_t row, uint32_t rule) {
    words c, p;
    oskuramos_answer a = oskuramos_check_panel(t, t_length, s, sizeof panel, lend_words(&c), ROOM, lend_words(&p), ROOM);
    return is(a, 0, yes, row, rule) && memcmp(c.word + GUARD, panel_rows, sizeof panel_rows) == 0 && words_kept(&c, 16) && words_kept(&p, 24);
}

static bool not_judged(size_t t_length, size_t s_length, size_t c_length, size_t p_length, uint32_t number, uint32_t first, uint32_t second) {
    words c, p;
    oskuramos_answer a = oskuramos_check_panel(panel_older, t_length, panel, s_length, lend_words(&c), c_length, lend_words(&p), p_length);
    return is(a, number, first, second, 0) && words_kept(&c, 0) && words_kept(&p, 0);
}

static void panels(void) {
    uint8_t twice[sizeof panel];
    memcpy(twice, panel, sizeof panel);
    twice[22] = 0x44;
    check(judged(panel_newer, sizeof panel_newer, panel, 1, 0, 0), "a panel that keeps all rules");
    check(judged(panel_older, sizeof panel_older, panel, 0, 1, OSKURAMOS_PANEL_SOURCE), "rule 4 where the code table lacks the source's code");
    check(judged(panel_width, sizeof panel_width, panel, 0, 1, OSKURAMOS_PANEL_PLACE), "rule 5 for a negative Width");
    check(judged(panel_newer, sizeof panel_newer, twice, 0, 1, OSKURAMOS_PANEL_NEW_NAME), "rule 3 for a second D");
    check(not_judged(16, sizeof panel, ROOM, ROOM, 8, 0, 0), "8 for a panel's table whose last byte is missing");
    check(not_judged(17, sizeof panel - 1, ROOM, ROOM, 4, 0, 0), "4 for a panel whose last byte is missing");
    check(not_judged(17, sizeof panel, 15, ROOM, 6, 2, 4), "6 for a panel's controls that lack a word");
    check(not_judged(17, sizeof panel, ROOM, 23, 7, 2, 4), "7 for a panel's properties that lack a word");
}
/* ---- running totals: a record between guards, all of whose words are looked at */
typedef struct {
    uint32_t before[GUARD];
    oskuramos_totals totals;
    uint32_t after[GUARD];
} guarded_totals;

static guarded_totals counted;

static bool counts(const uint8_t *t, size_t t_length, const uint8_t *s, size_t s_length, uint32_t c, uint32_t p, oskuramos_totals must, const uint32_t answer[4]) {
    oskuramos_answer a = oskuramos_count_blob(&counted.totals, t, t_length, s, s_length, c, p);
    for (size_t i = 0; i < GUARD; i++)
        if (counted.before[i] != 0 || counted.after[i] != 0) return false;
    return is(a, answer[0], answer[1], answer[2], answer[3]) && memcmp(&counted.totals, &must, sizeof must) == 0;
}

static void totals(const uint8_t *large) {
    const uint32_t read[4] = {0, 2, 3, 1}, six[4] = {6, 2, 3, 1}, seven[4] = {7, 2, 3, 1}, four[4] = {4, 0, 0, 0}, five[4] = {5, 0, 0, 0},
                   eight[4] = {8, 0, 0, 0}, twelve[4] = {12, 0, 0, 0};
    const uint16_t codes[] = OSKURAMOS_TOTALS_TYPE_CODES;
    const uint32_t numbers[] = OSKURAMOS_TOTALS_ANSWER_NUMBERS;
    oskuramos_totals must;
    memset(&must, 0, sizeof must);
    must.answers[0] = 1, must.types[0] = 1, must.types[19] = 1, must.unmapped = 1, must.mapped = 2, must.marks[2] = 2, must.marks[6] = 1;
    check(counts(table, sizeof table, blob, sizeof blob, 2, 3, must, read), "K1 counted: a Label and a Detail, one of three properties unmapped");
    must.answers[3]++;
    check(counts(table, sizeof table, blob, sizeof blob, 1, 3, must, six), "6 in room for one control: the answer alone is counted");
    must.answers[4]++;
    check(counts(table, sizeof table, blob, sizeof blob, 2, 2, must, seven), "7 in room for two properties");
    must.answers[1]++;
    check(counts(table, sizeof table, blob, 25, 2, 3, must, four), "4 for a stream that was cut");
    must.answers[5]++;
    check(counts(NULL, 0, blob, sizeof blob, 2, 3, must, eight), "8 without a code table");
    must.answers[2]++;
    check(counts(NULL, 0, large, OSKURAMOS_LONGEST + 1, 2, 3, must, five), "5 for a stream that is too long, before 8");
    counted.totals.marks[2] = must.marks[2] = UINT32_MAX - 1;
    check(counts(table, sizeof table, blob, sizeof blob, 2, 3, must, twelve), "12 where a total would pass the ceiling: nothing is counted");
    counted.totals.marks[2] = must.marks[2] = UINT32_MAX - 2;
    must.answers[0]++, must.types[0]++, must.types[19]++, must.unmapped++, must.mapped += 2, must.marks[2] += 2, must.marks[6]++;
    check(counts(table, sizeof table, blob, sizeof blob, UINT32_MAX, UINT32_MAX, must, read), "and up to the ceiling it is counted");
    counted.totals.answers[1] = must.answers[1] = UINT32_MAX;
    check(counts(table, sizeof table, blob, 25, 2, 3, must, twelve), "12 for a stream that is refused, too");
    uint8_t name[OSKURAMOS_NAME_ROOM];
    bool named = numbers[5] == 8;
    for (size_t i = 0; i < OSKURAMOS_TOTALS_OTHER_TYPES; i++) named = named && oskuramos_control_type_name(codes[i], name, sizeof name).first > 0;
    check(named && sizeof codes == 2 * OSKURAMOS_TOTALS_OTHER_TYPES, "each place of the types but the last has a name");
}

/* ---- room by the length */
static bool rows_are(oskuramos_rows r, uint32_t controls, uint32_t properties) { return r.controls == controls && r.properties == properties; }

/* So many entries, each the only one in the list of the one before. Returns the length. */
static size_t chain(uint8_t *s, size_t entries) {
    size_t at = 10;
    memset(s, 0, at);
    s[0] = table[0];
    for (size_t i = 0; i < entries; i++, at += 3) memcpy(s + at, "\xFE\x98\0", 3);
    s[at] = 0xFD;
    return at + 1;
}

/* Row i of a chain stands in row i - 1. */
static bool chain_nested(const uint32_t *controls, uint32_t entries) {
    for (uint32_t i = 0; i < entries; i++) {
        const uint32_t *row = controls + i * OSKURAMOS_CONTROL_WORDS;
        if (row[OSKURAMOS_CONTROL_LEVEL] != i || row[OSKURAMOS_CONTROL_PARENT] != (i > 0 ? i - 1 : OSKURAMOS_NO_PARENT)) return false;
    }
    return true;
}

/* Read with the room for its length, which has no control row to spare. */
static bool chain_fits(uint32_t entries) {
    static uint8_t s[3 * 256 + 11];
    static uint32_t controls[OSKURAMOS_CONTROL_WORDS * 256], properties[OSKURAMOS_PROPERTY_WORDS * 3 * 256];
    size_t length = chain(s, entries);
    oskuramos_rows room = oskuramos_room(length);
    size_t c = OSKURAMOS_CONTROL_WORDS * room.controls, p = OSKURAMOS_PROPERTY_WORDS * room.properties;
    return rows_are(room, entries, 3 * entries) && is(oskuramos_read_blob(table, sizeof table, s, length, controls, c, properties, p), 0, entries, 0, 0) &&
           chain_nested(controls, entries) && is(oskuramos_read_blob(table, sizeof table, s, length, controls, c - 1, properties, p), 6, entries, 0, 0);
}

static void rooms(void) {
    bool all = true;
    for (uint32_t entries = 1; entries <= 256; entries++) all = all && chain_fits(entries);
    check(all, "chains of 1 to 256 entries: the room for the length is enough and a word less isn't, each stands in the one before");
    check(rows_are(oskuramos_room(0), 0, 0) && rows_are(oskuramos_room(13), 0, 2) && rows_are(oskuramos_room(14), 1, 3), "room for 0, 13 and 14 bytes");
    check(rows_are(oskuramos_room(10240), 3409, 10229) && rows_are(oskuramos_room_2000(10240), 3409, 10229), "room for 10 KB");
    check(rows_are(oskuramos_room_later(31), 0, 0) && rows_are(oskuramos_room_later(32), 1, 1), "room for 31 and 32 bytes of the later layout");
    check(rows_are(oskuramos_room_later(10240), 568, 568), "room for 10 KB of the later layout");
    check(rows_are(oskuramos_room(OSKURAMOS_LONGEST), 5592401, 16777205), "room for 16,777,216 bytes");
    check(rows_are(oskuramos_room(SIZE_MAX), 5592401, 16777205) && rows_are(oskuramos_room_later(SIZE_MAX), 932066, 932066), "and no more for any length");
    check(oskuramos_type_info_room(39) == 0 && oskuramos_type_info_room(40) == 1 && oskuramos_type_info_room(SIZE_MAX) == 2097148, "room for TypeInfo");
}

/* ---- two code tables joined */
typedef struct {
    size_t length;
    uint8_t byte[64];
} code_table;

/* An entry's row for 0xDC; a form scope without rows with an entry's row for 0x30; what both give. */
static const code_table names_of_64 = {13, {0x2A, 0, 1, 0, 2, 0x64, 0, 1, 0, 0xDC, 0x14, 0, 1}};
static const code_table form_and_64 = {18, {0x2A, 0, 2, 0, 0, 0, 0, 0, 0, 2, 0x64, 0, 1, 0, 0x30, 0x94, 0, 0}};
static const code_table of_both = {22, {0x2A, 0, 2, 0, 0, 0, 0, 0, 0, 2, 0x64, 0, 2, 0, 0x30, 0x94, 0, 0, 0xDC, 0x14, 0, 1}};

static oskuramos_answer join(const code_table *one, const code_table *other, bytes *out, size_t room) {
    return oskuramos_join(one->byte, one->length, other->byte, other->length, lend_bytes(out), room);
}

static bool joined(const code_table *one, const code_table *other, const code_table *result, size_t room) {
    bytes out;
    oskuramos_answer a = join(one, other, &out, room);
    return is(a, 0, (uint32_t)result->length, 0, 0) && memcmp(out.byte + GUARD, result->byte, result->length) == 0 && bytes_kept(&out, result->length);
}

static bool join_refused(const code_table *one, const code_table *other, size_t room, uint32_t number) {
    bytes out;
    return is(join(one, other, &out, room), number, 0, 0, 0) && bytes_kept(&out, 0) && is(join(other, one, &out, room), number, 0, 0, 0) &&
           bytes_kept(&out, 0);
}

static code_table changed(code_table t, size_t at, uint8_t byte) {
    t.byte[at] = byte;
    return t;
}

/* Four header codes and `scopes` entry scopes from `first` on, each with `rows` rows that scope and id tell. Returns the length. */
static size_t put_table(uint8_t *t, unsigned first, unsigned scopes, unsigned rows) {
    uint8_t head[12] = {0x2A, 4, (uint8_t)scopes, 0, 1, 0, 2, 0, 3, 0, 4, 0};
    uint8_t *at = t + sizeof head;
    memcpy(t, head, sizeof head);
    for (unsigned i = 0; i < scopes; i++, at += 5) at[0] = 2, at[1] = (uint8_t)(first + i), at[2] = 0, at[3] = (uint8_t)rows, at[4] = 0;
    for (unsigned i = 0; i < scopes * rows; i++, at += 4)
        at[0] = (uint8_t)(i % rows), at[1] = (uint8_t)(first + i / rows), at[2] = 0x7F, at[3] = (uint8_t)(i % rows % 5);
    return (size_t)(at - t);
}

static uint8_t whole[OSKURAMOS_TABLE_LONGEST], half[2][OSKURAMOS_TABLE_LONGEST], result[OSKURAMOS_TABLE_LONGEST + 1];

/* The longest table of its two halves: with room to the byte, and a byte less. */
static bool longest_joined(void) {
    size_t length = put_table(whole, 0, 64, 253), low = put_table(half[0], 0, 32, 253), high = put_table(half[1], 32, 32, 253);
    result[length - 1] = result[length] = 0xA5;
    bool short_of_it = is(oskuramos_join(half[1], high, half[0], low, result, length - 1), 9, 0, 0, 0) && result[length - 1] == 0xA5;
    bool fits = is(oskuramos_join(half[1], high, half[0], low, result, length), 0, (uint32_t)length, 0, 0) && memcmp(result, whole, length) == 0;
    return length == OSKURAMOS_TABLE_LONGEST && short_of_it && fits && result[length] == 0xA5 &&
           is(oskuramos_join(whole, length, whole, length, result, length), 0, (uint32_t)length, 0, 0) && memcmp(result, whole, length) == 0;
}

/* 64 scopes with a row each, and `scopes` more from `first` on; whether the first of these has its row changed. */
static oskuramos_answer join_scopes(unsigned first, unsigned scopes, bool change, size_t room) {
    size_t many = put_table(whole, 0, 64, 1), few = put_table(half[0], first, scopes, 1);
    half[0][few - 4 * scopes + 1] ^= change;
    return oskuramos_join(whole, many, half[0], few, result, room);
}

static void joinings(void) {
    code_table short_of_a_byte = {names_of_64.length - 1, {0}}, more_header = {15, {0x2A, 1, 1, 0, 5, 0, 2, 0x64, 0, 1, 0, 0xDC, 0x14, 0, 1}};
    memcpy(short_of_a_byte.byte, names_of_64.byte, short_of_a_byte.length);
    code_table other_layout = changed(names_of_64, 0, 0x2B), other_target = changed(names_of_64, 10, 0x15), other_kind = changed(names_of_64, 12, 2);
    code_table other_both = changed(other_layout, 10, 0x15);
    check(joined(&names_of_64, &form_and_64, &of_both, 22), "two tables joined with room to the byte: each byte, and the guards");
    check(joined(&form_and_64, &names_of_64, &of_both, ROOM), "the other way round, with much room: bytes beyond stay");
    check(joined(&of_both, &of_both, &of_both, 22) && joined(&of_both, &names_of_64, &of_both, ROOM), "rows that both have stand once");
    check(join_refused(&short_of_a_byte, &form_and_64, ROOM, 8), "8 for a table whose last byte is missing, first or other");
    check(join_refused(&other_layout, &names_of_64, ROOM, 16), "16 for another layout byte");
    check(join_refused(&more_header, &names_of_64, ROOM, 16), "16 for a header code more");
    check(join_refused(&other_target, &names_of_64, ROOM, 17) && join_refused(&other_kind, &of_both, ROOM, 17), "17 for another target, and for another kind");
    check(is(join_scopes(64, 1, false, sizeof result), 18, 0, 0, 0), "18 for a scope beyond 64");
    check(is(join_scopes(63, 1, false, sizeof result), 0, 12 + 9 * 64, 0, 0), "not 18 for one of the 64");
    check(join_refused(&names_of_64, &form_and_64, 21, 9) && join_refused(&names_of_64, &form_and_64, 0, 9), "9 for a byte too few, and for none");
    check(join_refused(&short_of_a_byte, &other_layout, 0, 8), "8 before 16");
    check(join_refused(&other_both, &names_of_64, 0, 16), "16 before 17");
    check(is(join_scopes(63, 2, true, sizeof result), 17, 0, 0, 0), "17 before 18");
    check(is(join_scopes(64, 1, false, 0), 18, 0, 0, 0), "18 before 9");
    check(longest_joined(), "the longest table of its halves, 65,100 bytes, and of itself");
}

/* ---- a stream rewritten */
/* The object has 0xDC of two bytes with 0xFF before the length; then a list of one, with 0xFF: an entry that isn't reported. */
static const uint8_t spelled[] = {7, 1, 2, 3, 4, 5, 6, 7, 8, 9, 0xDC, 0xFF, 2, 0, 0x41, 0, 0xFF, 1, 0, 5, 0, 0xFD};
static const uint8_t spelled_short[] = {7, 1, 2, 3, 4, 5, 6, 7, 8, 9, 0xDC, 2, 0x41, 0, 0xFE, 5, 0, 0xFD};

static bool rewritten(const uint8_t *stream, size_t length, size_t room) {
    bytes out;
    oskuramos_answer a = oskuramos_rewrite(stream, length, lend_bytes(&out), room);
    return is(a, 0, sizeof spelled_short, 0, 0) && memcmp(out.byte + GUARD, spelled_short, sizeof spelled_short) == 0 && bytes_kept(&out, sizeof spelled_short);
}

static bool rewrite_refused(const uint8_t *stream, size_t length, size_t room, uint32_t number) {
    bytes out;
    return is(oskuramos_rewrite(stream, length, lend_bytes(&out), room), number, 0, 0, 0) && bytes_kept(&out, 0);
}

static void rewriting(const uint8_t *large) {
    check(rewritten(spelled, sizeof spelled, sizeof spelled_short), "a stream rewritten with room to the byte: each byte, and the guards");
    check(rewritten(spelled_short, sizeof spelled_short, ROOM), "rewritten again it stays; bytes beyond stay");
    check(rewrite_refused(spelled, sizeof spelled, sizeof spelled_short - 1, 9), "9 of rewrite for a byte too few");
    check(rewrite_refused(spelled, sizeof spelled - 1, 0, 4), "4 of rewrite for a stream whose last byte is missing, before 9");
    check(rewrite_refused(large, OSKURAMOS_LONGEST + 1, 0, 5), "5 of rewrite for 16,777,217 bytes, before 4");
}

/* ---- properties as comma-separated text */
static const char blob_text[] = "control,type,property,word,value\r\n,,8031,short,5\r\n1,0064,Left,short,-1\r\n1,0064,Name,text,A\r\n";
static const size_t blob_text_length = sizeof blob_text - 1;

/* K1 with other text: a comma, a quote, and a sign outside the basic plane. */
static const uint8_t quoting[32] = {0x2A, 0, 0,    0, 0,    0, 0,    0,    0,    0, 0x31, 5,    0xFE, 0x98, 0,    0xFE,
                                    0x64, 0, 0x60, 0xFF, 0xFF, 0xDC, 8, 0x2C, 0, 0x22, 0, 0x3D, 0xD8, 0x00, 0xDE, 0xFD};
static const char quoted[] = "control,type,property,word,value\r\n,,8031,short,5\r\n1,0064,Left,short,-1\r\n1,0064,Name,text,\",\"\"\xF0\x9F\x98\x80\"\r\n";

static bool blob_text_written(size_t controls_length, size_t properties_length, size_t room) {
    words c, p;
    bytes out;
    oskuramos_answer a = oskuramos_write_csv(table, sizeof table, blob, sizeof blob, lend_words(&c), controls_length, lend_words(&p), properties_length,
                                             lend_bytes(&out), room);
    return is(a, 0, (uint32_t)blob_text_length, 0, 0) && memcmp(out.byte + GUARD, blob_text, blob_text_length) == 0 && bytes_kept(&out, blob_text_length) &&
           memcmp(c.word + GUARD, control_rows, sizeof control_rows) == 0 && memcmp(p.word + GUARD, property_rows, sizeof property_rows) == 0 &&
           words_kept(&c, 16) && words_kept(&p, 18);
}

static bool blob_text_refused(const uint8_t *t, size_t t_length, const uint8_t *s, size_t s_length, size_t controls_length, size_t properties_length, size_t room,
                          oskuramos_answer expected) {
    words c, p;
    bytes out;
    oskuramos_answer a =
        oskuramos_write_csv(t, t_length, s, s_length, lend_words(&c), controls_length, lend_words(&p), properties_length, lend_bytes(&out), room);
    return is(a, expected.number, expected.first, expected.second, expected.third) && words_kept(&c, 0) && words_kept(&p, 0) && bytes_kept(&out, 0);
}

static bool text_quoted(void) {
    words c, p;
    bytes out;
    oskuramos_answer a = oskuramos_write_csv(table, sizeof table, quoting, sizeof quoting, lend_words(&c), ROOM, lend_words(&p), ROOM, lend_bytes(&out), ROOM);
    return is(a, 0, sizeof quoted - 1, 0, 0) && memcmp(out.byte + GUARD, quoted, sizeof quoted - 1) == 0 && bytes_kept(&out, sizeof quoted - 1);
}

static void blob_texts(const uint8_t *large) {
    oskuramos_answer six = {6, 2, 3, 1}, seven = {7, 2, 3, 1}, four = {4, 0, 0, 0}, five = {5, 0, 0, 0}, eight = {8, 0, 0, 0};
    oskuramos_answer thirteen = {OSKURAMOS_NO_ROOM_FOR_SHEET, 0, 0, 0};
    check(blob_text_written(16, 18, blob_text_length), "K1 as text with room to the byte: each byte, each word, and the guards");
    check(blob_text_written(ROOM, ROOM, ROOM), "K1 as text with much room: what is beyond stays");
    check(text_quoted(), "text with a comma, a quote and a pair: quoted, doubled, UTF-8");
    check(blob_text_refused(table, sizeof table, blob, sizeof blob, 16, 18, blob_text_length - 1, thirteen), "13 for a byte too few: no row and no byte");
    check(blob_text_refused(table, sizeof table, blob, sizeof blob, 15, 18, 0, six), "6 of write_csv, before 13");
    check(blob_text_refused(table, sizeof table, blob, sizeof blob, 16, 17, 0, seven), "7 of write_csv, before 13");
    check(blob_text_refused(table, sizeof table, blob, sizeof blob - 1, 0, 0, 0, four), "4 of write_csv, before 6");
    check(blob_text_refused(table, sizeof table - 1, blob, sizeof blob - 1, 0, 0, 0, eight), "8 of write_csv, before 4");
    check(blob_text_refused(table, sizeof table - 1, large, OSKURAMOS_LONGEST + 1, 0, 0, 0, five), "5 of write_csv, before 8");
}

/* ---- text */
static bool guid_refused(size_t guid_length, size_t out_length, uint32_t number) {
    static const uint8_t guid[17] = {0};
    bytes out;
    oskuramos_answer a = oskuramos_guid_text(guid, guid_length, lend_bytes(&out), out_length);
    return is(a, number, 0, 0, 0) && bytes_kept(&out, 0);
}

static bool guid_written(void) {
    uint8_t guid[16];
    bytes out;
    for (uint8_t i = 0; i < 16; i++) guid[i] = i;
    oskuramos_answer a = oskuramos_guid_text(guid, sizeof guid, lend_bytes(&out), ROOM);
    return is(a, 0, 38, 0, 0) && memcmp(out.byte + GUARD, "{03020100-0504-0706-0809-0A0B0C0D0E0F}", 38) == 0 && bytes_kept(&out, 38);
}

static bool label_written(uint32_t n, const char *label) {
    size_t size = strlen(label);
    bytes out;
    bool right = is(oskuramos_label_text(n, lend_bytes(&out), size), 0, (uint32_t)size, 0, 0) && memcmp(out.byte + GUARD, label, size) == 0;
    right = right && bytes_kept(&out, size);
    return right && is(oskuramos_label_text(n, lend_bytes(&out), size - 1), 9, 0, 0, 0) && bytes_kept(&out, 0);
}

static void texts(void) {
    check(guid_written(), "K11: GUID text, and bytes beyond it stay");
    check(guid_refused(16, 37, 9), "9 for GUID text in 37 bytes");
    check(guid_refused(15, ROOM, 10) && guid_refused(17, ROOM, 10), "10 for a GUID of 15 or 17 bytes");
    check(guid_refused(15, 37, 10), "10 before 9");
    check(label_written(0, "Control_0"), "the label of 0, and 9 for a byte too few");
    check(label_written(10, "Control_10"), "the label of 10, and 9 for a byte too few");
    check(label_written(UINT32_MAX, "Control_4294967295"), "the longest label, and 9 for a byte too few");
    check(oskuramos_is_utf16((const uint8_t *)"\x3D\xD8\x00\xDE", 4), "K10: a pair of surrogates is UTF-16");
    check(!oskuramos_is_utf16((const uint8_t *)"\x3D\xD8", 2), "K10: half of it isn't");
}

/* ---- parts */
static bool part_is(uint32_t mark, uint32_t start, uint32_t length, uint32_t source, uint32_t part_start, uint32_t part_length) {
    static const uint8_t label[9] = "Control_";
    oskuramos_part p = oskuramos_control_name(blob, sizeof blob, label, sizeof label, mark, start, length);
    return p.source == source && p.start == part_start && p.length == part_length;
}

static bool label_is_the_name(const uint32_t *row, const char *name) {
    uint8_t label[OSKURAMOS_LABEL_LONGEST];
    uint32_t mark = row[OSKURAMOS_CONTROL_NAME_MARK], start = row[OSKURAMOS_CONTROL_NAME_START], length = row[OSKURAMOS_CONTROL_NAME_LENGTH];
    uint32_t written = oskuramos_label_text(start, label, sizeof label).first;
    oskuramos_part p = oskuramos_control_name(blob, sizeof blob, label, written, mark, start, length);
    return mark == OSKURAMOS_NAME_NUMBERED && p.source == OSKURAMOS_OF_LABEL && p.length == strlen(name) && memcmp(label + p.start, name, p.length) == 0;
}

static void parts(void) {
    check(part_is(0, 23, 2, OSKURAMOS_OF_STREAM, 23, 2), "a text name is a part of the stream");
    check(part_is(2, 24, 2, OSKURAMOS_OF_STREAM, 24, 2), "text that isn't UTF-16 too, to the stream's end");
    check(part_is(1, 5, 9, OSKURAMOS_OF_LABEL, 0, 9), "a numbered name is the label's first bytes");
    check(part_is(0, 25, 2, OSKURAMOS_OF_STREAM, 0, 0), "a part past the stream is the empty part");
    check(part_is(0, UINT32_MAX, 2, OSKURAMOS_OF_STREAM, 0, 0), "a start and length that pass 2^32 too");
    check(part_is(1, 0, 10, OSKURAMOS_OF_STREAM, 0, 0), "a part past the label is the stream's empty part");
    check(part_is(3, 23, 2, OSKURAMOS_OF_STREAM, 0, 0), "mark 3 is the empty part");
    check(label_is_the_name(control_rows, "Control_0"), "K1's first control: its label, written and found by its row");
    check(oskuramos_control_name(blob, sizeof blob, NULL, 0, 1, 0, 9).length == 0, "without its label a numbered name is the empty part");
}

/* ---- the version */
static void version(void) {
    char text[32];
    snprintf(text, sizeof text, "%d.%d.%d", OSKURAMOS_VERSION_MAJOR, OSKURAMOS_VERSION_MINOR, OSKURAMOS_VERSION_PATCH);
    check(strcmp(text, OSKURAMOS_VERSION) == 0, "the version's text is its three numbers");
}

/* ---- names and values */
/* A look-up of one argument; that by mark and id of text has its own. */
typedef oskuramos_answer (*look_up)(uint16_t id, uint8_t *out, size_t out_length);

static oskuramos_answer name_of_mark_8(uint16_t id, uint8_t *out, size_t out_length) { return oskuramos_value_name(8, id, out, out_length); }
static oskuramos_answer name_of_mark_9(uint16_t id, uint8_t *out, size_t out_length) { return oskuramos_value_name(9, id, out, out_length); }

/* Into room to the byte, and into more. Into a byte less: 9, and nothing is written. */
static bool named(look_up f, uint16_t id, const char *name) {
    bytes out;
    size_t size = strlen(name);
    bool right = is(f(id, lend_bytes(&out), size), 0, (uint32_t)size, 0, 0) && memcmp(out.byte + GUARD, name, size) == 0 && bytes_kept(&out, size);
    right = right && is(f(id, lend_bytes(&out), ROOM), 0, (uint32_t)size, 0, 0) && memcmp(out.byte + GUARD, name, size) == 0 && bytes_kept(&out, size);
    return right && (size == 0 || (is(f(id, lend_bytes(&out), size - 1), 9, 0, 0, 0) && bytes_kept(&out, 0)));
}

static void names(void) {
    check(named(oskuramos_text_name, 0x1B, "ControlSource"), "a text name");
    check(named(oskuramos_number_name, 0x36, "Left"), "a number name");
    check(named(oskuramos_number_name, 0x13E, "DatasheetGridlinesBehavior"), "the longest name");
    check(named(oskuramos_bytes_name, 0x178, "GUID"), "a bytes name");
    check(named(oskuramos_control_type_name, 0x1899, "FormHeader"), "a control type's name");
    check(named(name_of_mark_8, 0x14, "Name"), "a value's name by its mark");
    check(named(name_of_mark_9, 0x14, ""), "no name for mark 9");
    check(named(oskuramos_text_name, 0xFFFF, ""), "no name for an id that no row has");
    check(is(oskuramos_text_name(0xFFFF, NULL, 0), 0, 0, 0, 0), "no name needs no room");
}

static bool valued(oskuramos_value v, uint32_t mark, uint32_t low, uint32_t high) { return v.mark == mark && v.low == low && v.high == high; }

static void values(void) {
    static const uint8_t largest[4] = {0xFF, 0x7F, 0, 0}, above[4] = {0, 0x80, 0, 0}, one[2] = {1, 0}, single[4] = {0, 0, 0xC0, 0x3F};
    static const uint8_t letter[2] = {0x41, 0};
    check(valued(oskuramos_entry_value(2, largest, 4), OSKURAMOS_SHORT, 32767, 0), "K2: Short 32767");
    check(valued(oskuramos_entry_value(2, above, 4), OSKURAMOS_BINARY, 0, 0), "K2: Binary above it");
    check(valued(oskuramos_entry_value(2, largest, 1), OSKURAMOS_SHORT, 255, 0), "K3: Short 255");
    check(valued(oskuramos_entry_value(1, one, 2), OSKURAMOS_LONG, 1, 0), "K4: Long 1");
    check(valued(oskuramos_entry_value(1, NULL, 0), OSKURAMOS_NOT_DEFAULT, 0, 0), "K5: NotDefault");
    check(valued(oskuramos_entry_value(6, single, 4), OSKURAMOS_DOUBLE, 0, 0x3FF80000), "K12: a single widened");
    check(valued(oskuramos_stored_value(0x60, one, 2), OSKURAMOS_SHORT, 1, 0), "a stored Short");
    check(valued(oskuramos_stored_value(0xDC, letter, 2), OSKURAMOS_BINARY, 0, 0), "stored bytes are Binary");
    check(valued(oskuramos_value_as(1, 0xDC, letter, 2), OSKURAMOS_TEXT, 0, 0), "and Text by kind 1");
    check(valued(oskuramos_value_as(1, 0xDC, letter, 1), OSKURAMOS_BINARY, 0, 0), "but not where they aren't UTF-16");
}

/* ---- what a newer code table changes: K1's table against one without its rows for 0x60, and against one without any */
static const code_table no_rows = {4, {0x2A, 0, 0, 0}}, own_row = {13, {0x2A, 0, 1, 0, 0, 0, 0, 1, 0, 0x31, 0x94, 0, 0}};
static const uint32_t learnt[20] = {1, 1, 0x60, 2, 0x64, 0x8060, 0x36, 2, 19, 2, 2, 1, 0xDC, 2, 0x64, 0x80DC, 0x14, 6, 23, 2};
static const uint32_t own_learnt[10] = {0, OSKURAMOS_NO_CONTROL, 0x31, 0, 0, 0x8031, 0x94, 2, 11, 1};

static bool differ(const code_table *older, const uint8_t *t, size_t t_length, size_t room, oskuramos_answer due, const uint32_t *rows, size_t size) {
    words w;
    oskuramos_answer a = oskuramos_differences(older->byte, older->length, t, t_length, blob, sizeof blob, lend_words(&w), room);
    return is(a, due.number, due.first, due.second, due.third) && memcmp(w.word + GUARD, rows, size * sizeof *rows) == 0 && words_kept(&w, size);
}

static bool differ_refused(const code_table *older, const code_table *newer, const uint8_t *s, size_t s_length, uint32_t number) {
    words w;
    oskuramos_answer a = oskuramos_differences(older->byte, older->length, newer->byte, newer->length, s, s_length, lend_words(&w), ROOM);
    return is(a, number, 0, 0, 0) && words_kept(&w, 0);
}

static void differing(const uint8_t *large) {
    oskuramos_answer none = {0, 0, 3, 0}, one = {0, 1, 3, 0}, two = {0, 2, 3, 0}, needed = {6, 2, 3, 0};
    code_table k1 = {sizeof table, {0}}, cut = {names_of_64.length - 1, {0}};
    memcpy(k1.byte, table, sizeof table), memcpy(cut.byte, names_of_64.byte, cut.length);
    check(differ(&names_of_64, table, sizeof table, 10, one, learnt, 10), "a code that the older table lacks: each word, with room to the word");
    check(differ(&no_rows, table, sizeof table, ROOM, two, learnt, 20), "two codes, with much room: words beyond stay");
    check(differ(&no_rows, own_row.byte, own_row.length, ROOM, one, own_learnt, 10), "a property of the form itself has no control");
    check(differ(&k1, table, sizeof table, 0, none, learnt, 0), "no difference to the same table, and no room for one");
    check(differ(&no_rows, table, sizeof table, 19, needed, learnt, 0), "6 with the rows needed for a word too few");
    check(differ_refused(&k1, &names_of_64, blob, sizeof blob - 1, 19), "19 for a table that lacks a row of the older, before 4");
    check(differ_refused(&names_of_64, &k1, blob, sizeof blob - 1, 4), "4 for a stream whose last byte is missing, with two tables");
    check(differ_refused(&k1, &cut, blob, sizeof blob, 8) && differ_refused(&cut, &k1, blob, sizeof blob, 8), "8 for either table, before 19");
    check(differ_refused(&cut, &k1, large, OSKURAMOS_LONGEST + 1, 5), "5 for 16,777,217 bytes, before 8, with two tables");
}

/* ---- empty slices by null */
static void nulls(void) {
    check(oskuramos_read_blob(NULL, 0, NULL, 0, NULL, 0, NULL, 0).number == 8, "null for all that read_blob is lent");
    check(is(oskuramos_read_blob(table, sizeof table, NULL, 0, NULL, 0, NULL, 0), 0, 0, 0, 0), "null for an empty stream, and no room");
    check(oskuramos_read_2000(NULL, 0, NULL, 0, NULL, 0, NULL, 0).number == 8, "null for all that read_2000 is lent");
    check(is(oskuramos_read_later(0, NULL, 0, NULL, 0, NULL, 0), 0, 0, 0, 0), "null for all that read_later is lent");
    check(oskuramos_read_type_info(NULL, 0, NULL, 0).number == 1, "null for all that read_type_info is lent");
    check(is(oskuramos_pair(NULL, 0, NULL, 0, 0, NULL, 0, NULL, 0, 0), 0, 0, 0, 0), "null for all that pair is lent");
    check(is(oskuramos_read_csv(NULL, 0, NULL, 0, NULL, 0), 14, 0, 0, 0), "null for text, rows and bytes: no record");
    check(oskuramos_check_panel(NULL, 0, NULL, 0, NULL, 0, NULL, 0).number == 8, "null for all that check_panel is lent");
    check(!oskuramos_well_formed(NULL, 0) && oskuramos_well_formed(table, sizeof table), "null for a code table");
    check(is(oskuramos_join(NULL, 0, NULL, 0, NULL, 0), 8, 0, 0, 0), "null for two tables, and no room");
    check(is(oskuramos_join(table, sizeof table, table, sizeof table, NULL, 0), 9, 0, 0, 0), "null for the joined table");
    check(oskuramos_differences(NULL, 0, NULL, 0, NULL, 0, NULL, 0).number == 8, "null for all that differences is lent");
    check(oskuramos_write_csv(NULL, 0, NULL, 0, NULL, 0, NULL, 0, NULL, 0).number == 8, "null for all that write_csv is lent");
    check(is(oskuramos_rewrite(NULL, 0, NULL, 0), 4, 0, 0, 0), "null for a stream that is rewritten, and no room");
    check(oskuramos_guid_text(NULL, 0, NULL, 0).number == 10, "null for a GUID and its text");
    check(oskuramos_label_text(0, NULL, 0).number == 9, "null for a label");
    check(oskuramos_is_utf16(NULL, 0), "null for no bytes at all, which are UTF-16");
    check(oskuramos_control_name(NULL, 0, NULL, 0, 0, 0, 1).length == 0, "null for stream and label");
    check(valued(oskuramos_stored_value(0x60, NULL, 0), OSKURAMOS_SHORT, 0, 0), "null for a stored value");
    check(valued(oskuramos_value_as(2, 0xDC, NULL, 0), OSKURAMOS_BINARY, 0, 0), "null for a value by kind");
}

int main(void) {
    uint8_t *large = calloc(OSKURAMOS_LONGEST + 1, 1);
    if (large == NULL) return 2;
    worked_example();
    listing();
    blob_refusals(large);
    readers(large);
    type_info(large);
    pairings();
    sheets();
    panels();
    totals(large);
    rooms();
    joinings();
    differing(large);
    blob_texts(large);
    rewriting(large);
    texts();
    parts();
    version();
    names();
    values();
    nulls();
    free(large);
    printf("%d failed\n", failures);
    return failures == 0 ? 0 : 1;
}
