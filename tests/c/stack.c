/* How much stack the calls take, and that it is less than the header says. A call runs on a painted stack of its own, and the bytes that it
   changed are counted. The streams are as deep as they may be, with every value that a property can have at every level. */
#define _XOPEN_SOURCE 700
#include "oskuramos.h"

#include <stdio.h>
#include <stdlib.h>
#include <string.h>
#include <ucontext.h>

enum { PAINT = 0xA5, PAINTED = 1 << 20, LEVELS = 256, ROOM = 1 << 22, ROWS = 1 << 18 };

static uint8_t painted[PAINTED], table[1 << 16], stream[ROOM];
static uint32_t controls[ROWS], properties[ROWS * 8];
static uint8_t text[1 << 26];
static uint8_t half[2][OSKURAMOS_TABLE_LONGEST], joined[OSKURAMOS_TABLE_LONGEST];
static size_t table_length, length, half_length;

/* ---- a call on a stack of its own */
static ucontext_t here, there;
static oskuramos_answer answer;

static size_t taken(void (*call)(void)) {
    memset(painted, PAINT, PAINTED);
    getcontext(&there);
    there.uc_stack.ss_sp = painted;
    there.uc_stack.ss_size = PAINTED;
    there.uc_link = &here;
    makecontext(&there, call, 0);
    swapcontext(&here, &there);
    size_t kept = 0;
    while (kept < PAINTED && painted[kept] == PAINT) kept++;
    return PAINTED - kept;
}

static void nothing(void) {}

static void read_blob(void) {
    answer = oskuramos_read_blob(table, table_length, stream, length, controls, ROWS, properties, ROWS * 8);
}

static void read_2000(void) {
    answer = oskuramos_read_2000(table, table_length, stream, length, controls, ROWS, properties, ROWS * 8);
}

/* No byte of text is lent: the counting walk runs, and answers 13. With room the rows and the text are written. */
static void count_csv(void) { answer = oskuramos_write_csv(table, table_length, stream, length, controls, ROWS, properties, ROWS * 8, NULL, 0); }

static void write_csv(void) {
    answer = oskuramos_write_csv(table, table_length, stream, length, controls, ROWS, properties, ROWS * 8, text, sizeof text);
}
static void check_panel(void) {
    answer = oskuramos_check_panel(table, table_length, stream, length, controls, ROWS, properties, ROWS * 8);
}

static void read_later(void) { answer = oskuramos_read_later(table[0], stream, length, controls, ROWS, properties, ROWS * 8); }

static void read_type_info(void) { answer = oskuramos_read_type_info(stream, length, controls, ROWS); }

/* A numbered control and one by its bytes, against every row of TypeInfo; they stand in `properties`. */
static void read_csv(void) {
    static const uint8_t sheet[] = "1,0064,Name,text,\"a,\"\"b\"\"\"\r\n2,0064,Left,short,-1";
    static uint8_t bytes[64];
    answer = oskuramos_read_csv(sheet, sizeof sheet - 1, properties, 20, bytes, sizeof bytes);
}

static void pair(void) {
    static const uint32_t rows[16] = {0, 1, UINT32_MAX, 0, 0, 0, 0, 0, 0, 2, 0, 4};
    memcpy(properties, rows, sizeof rows);
    answer = oskuramos_pair(stream, length, properties, 16, 2, stream, length, controls, ROWS, 200);
}

static oskuramos_totals totals;

static void count_blob(void) { answer = oskuramos_count_blob(&totals, table, table_length, stream, length, UINT32_MAX, UINT32_MAX); }

static void well_formed(void) { answer.number = !oskuramos_well_formed(table, table_length); }

/* The longest table of its halves. */
static void join(void) { answer = oskuramos_join(half[0], half_length, half[1], half_length, joined, sizeof joined); }

/* A table without rows, and one with all: every property differs that the second ties. */
static void differences(void) {
    uint8_t none[64] = {0};
    size_t head = 4 + 2 * (size_t)table[1];
    memcpy(none, table, head < sizeof none ? head : sizeof none), none[2] = none[3] = 0;
    answer = oskuramos_differences(none, head, table, table_length, stream, length, properties, 10 * 1000);
    if (answer.number == OSKURAMOS_MORE_CONTROLS) answer.number = 0;
}

static void small_calls(void) {
    static uint8_t guid[16], out[OSKURAMOS_GUID_LENGTH];
    oskuramos_guid_text(guid, sizeof guid, out, sizeof out);
    oskuramos_label_text(UINT32_MAX, out, sizeof out);
    oskuramos_is_utf16(stream, length);
    oskuramos_control_name(stream, length, out, sizeof out, 0, 0, 2);
    oskuramos_entry_value(6, guid, 4);
    oskuramos_stored_value(0x60, guid, 2);
    oskuramos_value_as(1, 0xDC, guid, 16);
}

static void names(void) {
    static uint8_t out[OSKURAMOS_NAME_ROOM];
    for (uint32_t mark = 0; mark < 10; mark++) oskuramos_value_name(mark, 0x14, out, sizeof out);
    oskuramos_text_name(0x14, out, sizeof out);
    oskuramos_number_name(0x14, out, sizeof out);
    oskuramos_bytes_name(0x178, out, sizeof out);
    oskuramos_control_type_name(0x64, out, sizeof out);
}

/* ---- streams */
static void put(size_t count, const uint8_t *bytes) {
    memcpy(stream + length, bytes, count);
    length += count;
}

static void put_byte(unsigned byte) { stream[length++] = (uint8_t)byte; }

static void put_u16(unsigned n) { put_byte(n & 0xFF), put_byte(n >> 8); }

static void put_u32(uint32_t n) { put_u16(n & 0xFFFF), put_u16(n >> 16); }

/* Values behind a length: none, text, a lone surrogate, a pair, as many bytes as a double and as a GUID have. */
static const uint8_t value[16] = {0x3D, 0xD8, 0, 0xDE, 0x41, 0, 0x42, 0, 0x43, 0, 0x44, 0, 0x45, 0, 0x46, 0};
static const size_t lengths[] = {0, 2, 4, 3, 8, 16};

static void run_2000(void) {
    for (unsigned id = 0; id < 0xFD; id++) {
        size_t told = id < 0x30 ? 0 : id < 0x60 ? 1 : id < 0x80 ? 2 : id < 0xBD ? 4 : 16;
        for (size_t i = 0; i < (told < 16 ? 1 : sizeof lengths / sizeof *lengths); i++) {
            put_byte(id);
            if (told == 16) put_byte((unsigned)lengths[i]);
            put(told < 16 ? told : lengths[i], value);
        }
    }
}

/* A tree of Access 2000 with this type at each level: the last entry stands at level LEVELS - 1. */
static void tree_2000(unsigned type, unsigned object, bool list) {
    length = 0;
    put_byte(table[0]);
    while (length < 10) put_byte(length == 8 ? object : 0);
    run_2000();
    for (unsigned level = 0; level < LEVELS; level++) {
        put_byte(0xFE);
        put_u16(type);
        run_2000();
    }
    put_byte(list ? 0xFF : 0xFD);
    if (list) put_u16(0);
}

static void run_later(unsigned trailer) {
    for (uint32_t type = 0; type < 14; type++)
        for (size_t i = 0; i < sizeof lengths / sizeof *lengths; i++) {
            bool last = type == 13 && i == sizeof lengths / sizeof *lengths - 1;
            put_u16(type == 0 ? 0x14 : 0x36), put_u32(type == 0 ? 10 : type), put_u32(0);
            put_u32((uint32_t)lengths[i]);
            put(lengths[i], value);
            put_u32(last ? trailer : 0);
        }
}

/* The same of the later layout; a byte more behind it makes it a scan. */
static void tree_later(bool scan) {
    length = 0;
    while (length < 14) put_byte(table[0] + 1u);
    run_later(254);
    for (unsigned level = 0; level < LEVELS; level++) {
        put_u16(0x98), put_u32(0);
        run_later(level + 1 < LEVELS ? 254 : 253);
    }
    if (scan) put_byte(0);
}

static void type_info(void) {
    static const uint8_t magic[4] = {0xF7, 0xEA, 0xCD, 0xAC};
    length = 0;
    put(4, magic);
    while (length < 32) put_byte(length == 12 ? 200 : 0);
    for (unsigned i = 0; i < 200; i++) {
        put_u16(i % 3 ? 0x6D : 0x77), put_u16(0), put_u32(i);
        put(12, (const uint8_t *)"first\0second");
        put_byte(0);
        for (unsigned j = 0; j < 36 && i % 3 == 0; j++) put_byte(1);
    }
}

/* 32 scopes with every id, from the code on. */
static void half_table(uint8_t *t, unsigned code) {
    uint8_t *at = t + 12;
    memcpy(t, "\x13\4\x20\0\1\0\2\0\3\0\4", 12);
    for (unsigned i = 0; i < 32; i++, at += 5) at[0] = 2, at[1] = (uint8_t)(code + i), at[3] = 253;
    for (unsigned i = 0; i < 32 * 253; i++, at += 4) at[0] = (uint8_t)(i % 253);
    half_length = (size_t)(at - t);
}

/* ---- what is taken, less what the switch to that stack takes */
static size_t most = 0, least;

static size_t told(void (*call)(void), const char *what) {
    size_t bytes = taken(call) - least;
    if (what != NULL) printf("%6zu %s\n", bytes, what);
    if (bytes > most) most = bytes;
    return bytes;
}

static void expect(uint32_t number, const char *what) {
    if (answer.number == number) return;
    printf("FAILED %s: answer %u\n", what, answer.number);
    exit(1);
}

static void deepest_2000(void) {
    size_t largest = 0, largest_alone = 0, largest_counted = 0;
    for (unsigned type = 0x60; type < 0xA0; type++)
        for (unsigned form = 0; form < 4; form++) {
            tree_2000(type, form & 1 ? 0x97 : 0, form & 2);
            size_t bytes = told(read_blob, NULL);
            expect(0, "a tree of Access 2000");
            if (bytes > largest) largest = bytes;
            bytes = told(read_2000, NULL);
            expect(0, "a tree of Access 2000, by its own reader");
            if (bytes > largest_alone) largest_alone = bytes;
            bytes = told(count_blob, NULL);
            expect(0, "a tree of Access 2000, counted");
            told(differences, NULL);
            expect(0, "differences of a tree of Access 2000");
            if (bytes > largest_counted) largest_counted = bytes;
        }
    told(count_csv, "write_csv without room, Access 2000, 256 levels");
    expect(13, "text without room");
    told(write_csv, "write_csv, Access 2000, 256 levels");
    expect(0, "text of a tree of Access 2000");
    told(check_panel, "check_panel, Access 2000, 256 levels");
    expect(0, "a tree of Access 2000, judged");
    printf("%6zu read_blob, Access 2000, 256 levels\n", largest);
    printf("%6zu read_2000, 256 levels\n", largest_alone);
    printf("%6zu count_blob, Access 2000, 256 levels\n", largest_counted);
}

int main(int argc, char **argv) {
    FILE *file = argc == 2 ? fopen(argv[1], "rb") : NULL;
    if (file == NULL) return 2;
    table_length = fread(table, 1, sizeof table, file);
    fclose(file);
    least = taken(nothing);
    deepest_2000();
    tree_later(false);
    told(read_blob, "read_blob, later layout, 256 levels");
    expect(0, "a tree of the later layout");
    told(differences, "differences, later layout, 256 levels");
    expect(0, "differences of a tree of the later layout");
    told(check_panel, "check_panel, later layout, 256 levels");
    expect(0, "a tree of the later layout, judged");
    told(count_blob, "count_blob, later layout, 256 levels");
    expect(0, "a tree of the later layout, counted");
    told(read_later, "read_later, 256 levels");
    expect(0, "a tree of the later layout, by its own reader");
    told(write_csv, "write_csv, later layout, 256 levels");
    expect(0, "text of a tree of the later layout");
    tree_later(true);
    told(read_blob, "read_blob, later layout, a scan behind 256 levels");
    expect(0, "a scan");
    told(read_later, "read_later, a scan behind 256 levels");
    expect(0, "a scan, by its own reader");
    told(write_csv, "write_csv, later layout, a scan");
    expect(0, "text of a scan");
    type_info();
    told(read_type_info, "read_type_info");
    expect(0, "TypeInfo");
    told(pair, "pair");
    expect(0, "rows paired");
    told(read_csv, "read_csv");
    expect(0, "comma-separated text");
    told(well_formed, "well_formed");
    expect(0, "the code table");
    half_table(half[0], 0), half_table(half[1], 32);
    told(join, "join");
    expect(0, "two code tables");
    told(small_calls, "texts, parts and values");
    told(names, "names");
    printf("%6zu at most, of %d\n", most, OSKURAMOS_STACK);
    return most < OSKURAMOS_STACK ? 0 : 1;
}
