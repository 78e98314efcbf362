/* Oskuramos: the reader of Access form design streams. A program for x86-64 Linux links it:

       cc panel.c $(pkg-config --cflags --libs oskuramos)                   where `make install` has put it
       cc -Iinclude panel.c out/liboskuramos.a                              in the repository, after `make`

   Length. A slice is a pointer and, after it, a length that counts elements: bytes, or words of 32 bits.
   Ownership. A slice is lent for the call alone. Nothing is kept, allocated or freed, and no state is left between calls, so threads may call at
   the same time with slices of their own. The archive calls no code of others but memset of the C library.
   Overlap. A `const` slice is only read; such slices may overlap each other. A slice that is written may overlap nothing else that the call is given.
   Alignment. Words are aligned to 4 bytes.
   Empty. Where a length is 0 its pointer isn't followed, and may be null. Otherwise the pointer is to that many elements.
   Stack. A call takes less than OSKURAMOS_STACK bytes, whatever is lent. This is measured with the deepest streams (tests/c/stack.c) and not proved.

   No function asks anything more of its caller. Bad input is refused by a number, and a refused call writes nothing. */
#ifndef OSKURAMOS_H
#define OSKURAMOS_H

#include <stdbool.h>
#include <stddef.h>
#include <stdint.h>

/* The version of this header and of the archive that belongs to it. Before 1.0.0 a new minor number may change rows and functions. */
#define OSKURAMOS_VERSION_MAJOR 0
#define OSKURAMOS_VERSION_MINOR 2
#define OSKURAMOS_VERSION_PATCH 0
#define OSKURAMOS_VERSION "0.2.0"

#ifdef __cplusplus
extern "C" {
#endif

enum { OSKURAMOS_STACK = 98304 };

/* ---- answers */
enum {
    OSKURAMOS_READ = 0,             /* read, or written */
    OSKURAMOS_TOO_SHORT = 1,        /* TypeInfo under 32 bytes */
    OSKURAMOS_OTHER_MAGIC = 2,      /* its first four bytes aren't F7 EA CD AC */
    OSKURAMOS_TOO_MANY_ENTRIES = 3, /* its count at 12 is above (length - 32) / 8 */
    OSKURAMOS_NO_READING = 4,       /* an Access 2000 stream fits no reading */
    OSKURAMOS_TOO_LONG = 5,         /* a stream over OSKURAMOS_LONGEST bytes */
    OSKURAMOS_MORE_CONTROLS = 6,    /* more control rows needed than lent (TypeInfo, differences: more rows) */
    OSKURAMOS_MORE_PROPERTIES = 7,  /* more property rows needed than lent */
    OSKURAMOS_BAD_TABLE = 8,        /* the code table isn't well formed */
    OSKURAMOS_NO_ROOM_FOR_TEXT = 9, /* the buffer for text, a joined code table or a rewritten stream is too short */
    OSKURAMOS_NOT_A_GUID = 10,      /* the GUID value isn't 16 bytes */
    OSKURAMOS_BAD_ROWS = 11,        /* rows to pair: more counted than lent, a name mark above 2, or a name outside its stream */
    OSKURAMOS_OVER_CEILING = 12,    /* a total would pass 4,294,967,295 */
    OSKURAMOS_NO_ROOM_FOR_SHEET = 13, /* what is written or read as comma-separated text doesn't fit the room lent */
    OSKURAMOS_NOT_A_SHEET = 14,     /* text read isn't comma-separated text with five fields in every record */
    OSKURAMOS_OTHER_LAYOUT = 15,    /* a reader for one layout is given a stream that speaks for the other */
    OSKURAMOS_OTHER_HEAD = 16,      /* two code tables differ in layout byte or header codes */
    OSKURAMOS_TWO_ROWS = 17,        /* two code tables have different rows for one scope and id */
    OSKURAMOS_TOO_MANY_SCOPES = 18, /* two code tables have more than 64 scopes together */
    OSKURAMOS_NO_SUCCESSOR = 19     /* the newer code table hasn't the older's layout byte and header codes and every row of it */
};

/* The number and three counts. Every refusal but 6 and 7 has counts 0; these two say how many rows are needed. */
typedef struct {
    uint32_t number;
    uint32_t first;
    uint32_t second;
    uint32_t third;
} oskuramos_answer;

/* ---- streams */
enum { OSKURAMOS_LONGEST = 16777216 };

/* The words of a control's row, and how many they are. What the name's words say stands at oskuramos_control_name. */
enum {
    OSKURAMOS_CONTROL_TYPE = 0,
    OSKURAMOS_CONTROL_NAME_MARK = 1,
    OSKURAMOS_CONTROL_NAME_START = 2,
    OSKURAMOS_CONTROL_NAME_LENGTH = 3,
    OSKURAMOS_CONTROL_FIRST_PROPERTY = 4, /* the number of its first property row */
    OSKURAMOS_CONTROL_PROPERTY_COUNT = 5,
    OSKURAMOS_CONTROL_LEVEL = 6,  /* how deep it stands: 0 for a section or another top entry, 1 for what stands in that, at most 255 */
    OSKURAMOS_CONTROL_PARENT = 7, /* the row of the control that it stands in, OSKURAMOS_NO_PARENT at level 0 */
    OSKURAMOS_CONTROL_WORDS = 8
};

/* A control's parent is the last row before it that is one level less. What stands in a control are the rows right after it, up to the first whose level
   isn't higher. Where a later stream is scanned for names every control has level 0. */
#define OSKURAMOS_NO_PARENT UINT32_C(0xFFFFFFFF)

/* The words of a property's row. Start and length name the value's bytes in the stream; marks, low and high stand at oskuramos_value. */
enum {
    OSKURAMOS_PROPERTY_ID = 0,
    OSKURAMOS_PROPERTY_MARK = 1,
    OSKURAMOS_PROPERTY_LOW = 2,
    OSKURAMOS_PROPERTY_HIGH = 3,
    OSKURAMOS_PROPERTY_START = 4,
    OSKURAMOS_PROPERTY_LENGTH = 5,
    OSKURAMOS_PROPERTY_WORDS = 6
};

/* In an Access 2000 stream an id from here on is a raw code that the code table lacks, joined with this by OR. In the later layout ids are
   as stored, and say nothing of a table. The layout is Access 2000 where the stream's first byte is the code table's first byte. */
enum { OSKURAMOS_UNMAPPED = 0x8000 };

/* The words of a row of TypeInfo. The name is bytes in the code page of the database, of which the stream doesn't speak.
   The last word is 1 where the stream's end ended the name and no NUL: the stream lost its tail, and the name may have been longer. Only the last row can
   have it. 0 in every row doesn't say that the stream is whole. An entry has two names, and the second is used unless it is empty: a stream that was cut
   right after the first name's NUL gives the first name with 0, since that name is whole, and that a second one is lost can't be seen. */
enum {
    OSKURAMOS_TYPE_INFO_TYPE = 0,
    OSKURAMOS_TYPE_INFO_INDEX = 1,
    OSKURAMOS_TYPE_INFO_NAME_START = 2,
    OSKURAMOS_TYPE_INFO_NAME_LENGTH = 3,
    OSKURAMOS_TYPE_INFO_NAME_CUT = 4,
    OSKURAMOS_TYPE_INFO_WORDS = 5
};

/* Reads a Blob by a code table into rows: of the controls, and of the properties. The object's own properties stand first, then each control's.
   Answers 0 with the numbers of controls, of properties and of the object's own properties, or 5, 8, 4, 6, 7, tried in this order.
   Words after the rows that are written keep their values. To learn the room that is needed, lend none: the answer is 6 or 7 with the
   counts, or 0 where there is nothing to write. The later layout has no mark of its own: bytes that are no Blob at all are mostly answered
   0 with no rows. */
oskuramos_answer oskuramos_read_blob(const uint8_t *table, size_t table_length, const uint8_t *stream, size_t stream_length,
                                     uint32_t *controls, size_t controls_length, uint32_t *properties, size_t properties_length);

/* The same for whoever knows which layout a Blob has, so that a wrong first byte is noticed. A stream whose first byte is the layout byte speaks for
   Access 2000; every other one, the empty one too, for the later layout. A stream that speaks for the other layout is answered 15: look up in
   your register which is right, or let oskuramos_read_blob choose.
   oskuramos_read_2000 takes the layout byte from its code table, and answers 0 or 5, 8, 15, 4, 6, 7, tried in this order.
   oskuramos_read_later needs no table. It is told the layout byte as a number, that of a code table being table[0], and answers 0 or 5, 15, 6, 7; with
   a number above 255 it never answers 15. */
oskuramos_answer oskuramos_read_2000(const uint8_t *table, size_t table_length, const uint8_t *stream, size_t stream_length,
                                     uint32_t *controls, size_t controls_length, uint32_t *properties, size_t properties_length);
oskuramos_answer oskuramos_read_later(uint32_t layout, const uint8_t *stream, size_t stream_length, uint32_t *controls,
                                      size_t controls_length, uint32_t *properties, size_t properties_length);

/* Reads TypeInfo into rows.
   Answers 0 with the number of rows, or 5, 1, 2, 3, 6, tried in this order. Words after the rows that are written keep their values. */
oskuramos_answer oskuramos_read_type_info(const uint8_t *stream, size_t stream_length, uint32_t *rows, size_t rows_length);

/* Sets the type of each control row counted to that of the first TypeInfo row counted with the same name; without one it stays, and all other words
   stay too. So a scanned control, whose type is 0 in a later Blob, gets the type that TypeInfo knows. The counts are those of the calls that read the rows.
   Names match when both are wholly ASCII and equal after folding A to Z: a UTF-16 name by its units, a loose one by its bytes, a numbered one by its label.
   Names beyond ASCII pair with none. A TypeInfo row whose name was cut is skipped.
   Answers 0 with counts 0, or 11, tried before anything is written: where a count is above the rows lent or, among the rows counted, a control's mark is
   above 2 or a row but a numbered one names bytes outside its stream. Rows that were read from these streams are never answered 11.
   To learn which controls found no row, set their types to OSKURAMOS_NO_TYPE before the call: these keep it. The time grows with the product of the counts. */
#define OSKURAMOS_NO_TYPE UINT32_C(0xFFFFFFFF)
oskuramos_answer oskuramos_pair(const uint8_t *stream, size_t stream_length, uint32_t *controls, size_t controls_length,
                                uint32_t control_count, const uint8_t *info_stream, size_t info_stream_length, const uint32_t *infos,
                                size_t infos_length, uint32_t info_count);

/* ---- comma-separated text */
/* Reads a Blob into rows as oskuramos_read_blob does, and writes its properties as text by RFC 4180: the record control,type,property,word,value, then a
   record for each property row, in their order. Control is the control's number in decimal and type its code in four digits of hex; both are empty for
   the object's own properties. Property is the name or, where it has none, the id in four digits of hex. Word is bool, notdefault, short, long, double,
   guid, text, binary or loose, and value is yes or no, -, a decimal number, 16 digits of hex, a GUID, the text whole in UTF-8, or bytes in hex, two
   digits each. A field is quoted where it holds a comma, a quote, CR or LF, and its quotes are doubled; only text can. Each record ends with CR LF.
   No NUL is written after the text, and text may hold one.
   Answers 0 with the length written, 0, 0, or 5, 8, 4, 6, 7 as oskuramos_read_blob, and then 13 where the text doesn't fit the buffer or has more than
   4,294,967,295 bytes. A refusal, 13 too, writes no row and no byte. Rows, words and bytes after what is written keep their values.
   Room of 34 bytes, 94 for each property row lent and twice the stream's length holds every text, and is fastest: the text isn't measured first. */
oskuramos_answer oskuramos_write_csv(const uint8_t *table, size_t table_length, const uint8_t *stream, size_t stream_length,
                                     uint32_t *controls, size_t controls_length, uint32_t *properties, size_t properties_length,
                                     uint8_t *out, size_t out_length);

/* The words of a field's row: where its bytes start in the buffer, and how many they are. A record has five fields: control, type, property, word, value. */
enum {
    OSKURAMOS_FIELD_START = 0,
    OSKURAMOS_FIELD_LENGTH = 1,
    OSKURAMOS_FIELD_WORDS = 2,
    OSKURAMOS_RECORD_FIELDS = 5
};

/* Reads comma-separated text by RFC 4180, whose text data may be any byte but comma, quote, CR and LF. Every record has five fields; the last CR LF is
   optional. A header record is a record as any other. A blank beside a quote, a byte order mark and bytes above 0x7F are data; no code page is looked for.
   Writes the fields' bytes into `out`, quotes undone, end to end, and a row for each field. Words and bytes after what is written keep their values.
   Answers 0 with the bytes and the fields, or 14, 13, tried in this order; 13 also for more than 4,294,967,295 bytes or fields. There are never more bytes
   than the text has, and never more fields than its bytes and one: such room is always enough. A field that is empty has a row with length 0. */
oskuramos_answer oskuramos_read_csv(const uint8_t *text, size_t text_length, uint32_t *fields, size_t fields_length, uint8_t *out, size_t out_length);

/* ---- the rules of panels */
/* The rules, by the numbers that oskuramos_check_panel gives. */
enum {
    OSKURAMOS_PANEL_TYPE_NAME = 1, /* every type code has a type name (oskuramos_control_type_name) */
    OSKURAMOS_PANEL_NAME_MARK = 2, /* names with mark OSKURAMOS_NAME_UTF16 only */
    OSKURAMOS_PANEL_NEW_NAME = 3,  /* no name equal, byte for byte, to an earlier row's */
    OSKURAMOS_PANEL_SOURCE = 4,    /* each TextBox or ComboBox has exactly one property 0x001B (ControlSource), and that is text of at least one byte */
    OSKURAMOS_PANEL_PLACE = 5,     /* every property with the id of Left, Top, Width or Height is Short, and those of Width and Height aren't negative */
    OSKURAMOS_PANEL_LEVEL = 6      /* level at most 7 */
};

/* Reads a Blob as oskuramos_read_blob does, into the same rows, and judges what was read by the rules of panels.
   Answers 0 with 1, 0, 0 where all controls keep all rules; else 0 with 0, the first control row that breaks a rule, and the first rule that it breaks;
   the rows stay written for yes and for no. Or 5, 8, 4, 6, 7, as oskuramos_read_blob does, which change nothing.
   So a yes says of an Access 2000 Blob that the code table has the code of every box's source.
   Rule 3 goes by a hash of each name: only names that share one are compared with those before them. */
oskuramos_answer oskuramos_check_panel(const uint8_t *table, size_t table_length, const uint8_t *stream, size_t stream_length,
                                       uint32_t *controls, size_t controls_length, uint32_t *properties, size_t properties_length);

/* ---- running totals over many streams */
enum {
    OSKURAMOS_TOTALS_ANSWERS = 6,
    OSKURAMOS_TOTALS_TYPES = 31,
    OSKURAMOS_TOTALS_OTHER_TYPES = 30, /* the place of all types that have no name */
    OSKURAMOS_TOTALS_MARKS = 9
};

/* How many Blobs were answered 0, 4, 5, 6, 7 and 8, in this order; and of those answered 0: how many controls have each type name, how many properties are
   unmapped (an id of OSKURAMOS_UNMAPPED or more, in an Access 2000 stream) and how many aren't, and how many values have each mark. Set all to 0 before the
   first stream. A type name is counted at one place, whichever of its codes a control has: the place of a name is that of its first code below. */
typedef struct {
    uint32_t answers[OSKURAMOS_TOTALS_ANSWERS];
    uint32_t types[OSKURAMOS_TOTALS_TYPES];
    uint32_t unmapped;
    uint32_t mapped;
    uint32_t marks[OSKURAMOS_TOTALS_MARKS]; /* by mark, 0 to 8 */
} oskuramos_totals;

/* What the places of `answers` count, and the first code of the name that each place of `types` but the last counts: Label, Rectangle, Line, Image,
   CommandButton, OptionButton, CheckBox, OptionGroup, BoundObjectFrame, TextBox, ListBox, ComboBox, SubForm, ObjectFrame, PageBreak, CustomControl,
   ToggleButton, TabControl, Page, Detail, PageHeader, PageFooter, GroupHeader, GroupFooter, FormHeader, FormFooter, ReportHeader, ReportFooter, SubReport,
   EmptyCell. oskuramos_control_type_name writes the name of a code. */
#define OSKURAMOS_TOTALS_ANSWER_NUMBERS {0, 4, 5, 6, 7, 8}
#define OSKURAMOS_TOTALS_TYPE_CODES                                                                                                          \
    {0x0064, 0x0065, 0x0066, 0x0067, 0x0068, 0x0069, 0x006A, 0x006B, 0x006C, 0x006D, 0x006E, 0x006F, 0x0070, 0x0072, 0x0076,                   \
     0x0077, 0x007A, 0x007B, 0x007C, 0x0098, 0x009B, 0x009C, 0x009D, 0x009E, 0x1899, 0x189A, 0x1999, 0x199A, 0x1B70, 0x247F}

/* Counts a Blob into a record. No rows are written: the room is two numbers of rows, and the answer with its counts is the one that oskuramos_read_blob
   gives where so many rows are lent. Whatever that answer is, the record counts it. With UINT32_MAX for both numbers no stream is answered 6 or 7.
   12, with counts 0, in the place of the reading's answer where any number of the record would pass 4,294,967,295; then the record stays as it is.
   The record is lent as the other buffers are: it overlaps nothing else that is lent, and isn't null. */
oskuramos_answer oskuramos_count_blob(oskuramos_totals *totals, const uint8_t *table, size_t table_length, const uint8_t *stream,
                                      size_t stream_length, uint32_t control_room, uint32_t property_room);

/* ---- room by the length */
/* How many rows to lend: rows, not words. A buffer has OSKURAMOS_CONTROL_WORDS or OSKURAMOS_PROPERTY_WORDS words for each of them. */
typedef struct {
    uint32_t controls;
    uint32_t properties;
} oskuramos_rows;

/* Rows that are enough for every stream of at most so many bytes, so that a Blob is never answered 6 or 7: for streams of either layout, or of the
   one that they are known to have. Buffers can be fixed once, for the longest stream that is to be read. The number grows with the length up
   to OSKURAMOS_LONGEST and then stays, since longer streams aren't read; it may be multiplied by the words of a row and by 4 within 32 bits. */
oskuramos_rows oskuramos_room(size_t length);
oskuramos_rows oskuramos_room_2000(size_t length);
oskuramos_rows oskuramos_room_later(size_t length);

/* The same for TypeInfo: with so many rows of OSKURAMOS_TYPE_INFO_WORDS words it is never answered 6. */
uint32_t oskuramos_type_info_room(size_t length);

/* ---- code tables */
/* The longest code table that is well formed. */
enum { OSKURAMOS_TABLE_LONGEST = 65100 };

/* Whether a code table is well formed. */
bool oskuramos_well_formed(const uint8_t *table, size_t table_length);

/* Joins two code tables of the same layout byte and header codes: writes the table that holds every scope and row of either, also scopes
   without rows. It is well formed, and a Blob is read under it as under either, but for the codes that this one lacked.
   Answers 0 with the length written, or 8 where either isn't well formed, 16, 17, 18, 9, tried in this order. Bytes after it keep their values.
   A buffer of both lengths together is enough, and one of OSKURAMOS_TABLE_LONGEST for any two. It may not be one of the tables. */
oskuramos_answer oskuramos_join(const uint8_t *one, size_t one_length, const uint8_t *other, size_t other_length, uint8_t *out,
                                size_t out_length);

/* The words of a row of differences. */
enum {
    OSKURAMOS_DIFFERENCE_PROPERTY = 0, /* the number of the property row */
    OSKURAMOS_DIFFERENCE_CONTROL = 1,  /* of the control row, OSKURAMOS_NO_CONTROL for the object's own */
    OSKURAMOS_DIFFERENCE_CODE = 2,     /* the raw code */
    OSKURAMOS_DIFFERENCE_SCOPE_KIND = 3, /* 0 form, 1 report, 2 entries of a type */
    OSKURAMOS_DIFFERENCE_SCOPE_CODE = 4, /* that type, else 0 */
    OSKURAMOS_DIFFERENCE_OLDER_ID = 5,
    OSKURAMOS_DIFFERENCE_NEWER_ID = 6,
    OSKURAMOS_DIFFERENCE_NEWER_MARK = 7,
    OSKURAMOS_DIFFERENCE_START = 8,
    OSKURAMOS_DIFFERENCE_LENGTH = 9,
    OSKURAMOS_DIFFERENCE_WORDS = 10
};

#define OSKURAMOS_NO_CONTROL UINT32_C(0xFFFFFFFF)

/* Lists the properties of a Blob whose rows under the newer code table differ from those under the older, in row order. Answers 0 with how many they are and how
   many properties the Blob has, or 5, 8 where either table isn't well formed, 19, 4, 6, tried in this order; 6 has the same two counts. Where none is
   listed the two readings are word for word the same. A Blob of the later layout has none. Words after the list keep their values. */
oskuramos_answer oskuramos_differences(const uint8_t *older, size_t older_length, const uint8_t *newer, size_t newer_length,
                                       const uint8_t *stream, size_t stream_length, uint32_t *rows, size_t rows_length);

/* ---- one spelling for an archive */
/* Writes an Access 2000 stream anew in its shortest spelling: each length up to 254 in one byte, and 0xFE for a list of one entry. All else is kept:
   the first ten bytes (the first isn't judged, so no code table is needed), every entry, reported or not, types, ids and values. What is written is
   read as the same rows but for the starts of values and names, and the bytes there are the same. It is never longer than the stream, nor than any
   stream with the same first ten bytes, types, ids, values and lists; rewritten again it stays.
   Answers 0 with the length written, or 5, 4, 9, tried in this order. Bytes after it keep their values. A buffer as long as the stream is enough. It
   may not be the stream.
   Streams that show the same rows need not be rewritten as the same: an entry of type 0x98 without a list (98 00 FD) and one with an empty list
   (98 00 FF 00 00) show one row. The later layout leaves no such choice: its lengths and trailers are fixed in size. */
oskuramos_answer oskuramos_rewrite(const uint8_t *stream, size_t stream_length, uint8_t *out, size_t out_length);

/* ---- the name of a control
   By its mark a name is
   0  UTF-16LE, well formed: of even length, surrogates in pairs. It stands in the stream, without a zero after it, and may be empty.
   1  numbered, as the control has no name of its own: "Control_" and its number in decimal, in ASCII. The stream doesn't have it. The row's
      start is the number and its length that of the label: have oskuramos_label_text write it into a buffer of OSKURAMOS_LABEL_LONGEST bytes.
   2  loose: bytes of the stream that were stored as text and aren't well-formed UTF-16, as the length is odd or a surrogate has no pair. Compare
      them byte for byte. To show them, print them in hex, or decode UTF-16LE with U+FFFD for each surrogate without its pair and for an odd last
      byte: what is shown is then no longer the name. Don't take them for another code page, and don't hand them to a decoder that trusts its input. */
enum { OSKURAMOS_NAME_UTF16 = 0, OSKURAMOS_NAME_NUMBERED = 1, OSKURAMOS_NAME_LOOSE = 2 };

enum { OSKURAMOS_OF_STREAM = 0, OSKURAMOS_OF_LABEL = 1 };

/* So many bytes from start on, of the stream or of the label. The part is inside: start + length is at most the length of its slice. */
typedef struct {
    uint32_t source;
    uint32_t start;
    uint32_t length;
} oskuramos_part;

/* Where a control's name stands, by the three words of its row. The label is what oskuramos_label_text wrote for a numbered control, and empty
   otherwise. A mark above 2, or a part outside its slice, gives the empty part at the stream's start: a numbered name without its label too. */
oskuramos_part oskuramos_control_name(const uint8_t *stream, size_t stream_length, const uint8_t *label, size_t label_length, uint32_t mark,
                                      uint32_t start, uint32_t length);

/* ---- text */
enum { OSKURAMOS_GUID_LENGTH = 38, OSKURAMOS_LABEL_LONGEST = 18 };

/* Writes a GUID's 16 bytes as text of 38, without a NUL. Answers 0 with the length written, or 10, 9. Bytes after it keep their values. */
oskuramos_answer oskuramos_guid_text(const uint8_t *guid, size_t guid_length, uint8_t *out, size_t out_length);

/* Writes "Control_" and n in decimal, 9 to 18 bytes, without a NUL. Answers 0 with the length written, or 9. Bytes after it keep their values. */
oskuramos_answer oskuramos_label_text(uint32_t n, uint8_t *out, size_t out_length);

/* Whether bytes are well-formed UTF-16LE: even length, paired surrogates. */
bool oskuramos_is_utf16(const uint8_t *bytes, size_t bytes_length);

/* ---- names by id */
/* Bytes that are more than enough for every name of this version. */
enum { OSKURAMOS_NAME_ROOM = 64 };

/* Writes the name's ASCII bytes, without a NUL: print them with "%.*s". Answers 0 with the length written, 0 where nothing has the id; or 9 where
   the name doesn't fit. Bytes after it keep their values. */
oskuramos_answer oskuramos_text_name(uint16_t id, uint8_t *out, size_t out_length);
oskuramos_answer oskuramos_number_name(uint16_t id, uint8_t *out, size_t out_length);
oskuramos_answer oskuramos_bytes_name(uint16_t id, uint8_t *out, size_t out_length);
oskuramos_answer oskuramos_control_type_name(uint16_t id, uint8_t *out, size_t out_length);

/* The name of a property by its value's mark and its id: that of the table which the mark uses. */
oskuramos_answer oskuramos_value_name(uint32_t mark, uint16_t id, uint8_t *out, size_t out_length);

/* ---- values */
/* The marks. Low and high are 0 where nothing is said of them. */
enum {
    OSKURAMOS_BOOL = 0,        /* low is 0 or 1 */
    OSKURAMOS_NOT_DEFAULT = 1, /* a flag without a value */
    OSKURAMOS_SHORT = 2,       /* low is the number's 32-bit two's complement: (int32_t)low */
    OSKURAMOS_LONG = 3,        /* the same */
    OSKURAMOS_DOUBLE = 4,      /* low and high are its bits */
    OSKURAMOS_GUID = 5,        /* the value is the row's 16 bytes: oskuramos_guid_text */
    OSKURAMOS_TEXT = 6,        /* the row's bytes, well-formed UTF-16LE */
    OSKURAMOS_BINARY = 7,      /* the row's bytes */
    OSKURAMOS_LOOSE_TEXT = 8   /* the row's bytes: text that isn't UTF-16, as a name of mark 2 */
};

typedef struct {
    uint32_t mark;
    uint32_t low;
    uint32_t high;
} oskuramos_value;

/* The value of a property's bytes in the later layout, by its type. */
oskuramos_value oskuramos_entry_value(uint32_t type_code, const uint8_t *bytes, size_t bytes_length);

/* The value of a property's bytes in the Access 2000 layout as it is stored, by its id. */
oskuramos_value oskuramos_stored_value(uint8_t id, const uint8_t *bytes, size_t bytes_length);

/* The kinds of a code table's rows. */
enum { OSKURAMOS_KIND_NUMBER = 0, OSKURAMOS_KIND_TEXT = 1, OSKURAMOS_KIND_GUID = 2, OSKURAMOS_KIND_DOUBLE = 3, OSKURAMOS_KIND_BYTES = 4 };

/* The same by the kind of the code table's row that ties the id. */
oskuramos_value oskuramos_value_as(uint8_t kind, uint8_t id, const uint8_t *bytes, size_t bytes_length);

#ifdef __cplusplus
}
#endif

#endif
