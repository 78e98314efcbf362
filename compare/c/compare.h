/* What src/c.rs hands to C. */
#ifndef COMPARE_H
#define COMPARE_H

#include "oskuramos.h"
#include <stdbool.h>
#include <stddef.h>
#include <stdint.h>

enum { KIND_BLOB = 1, KIND_TYPE_INFO = 2 };

/* A stream with its name, which has no NUL at its end. */
typedef struct {
    const char *name;
    size_t name_length;
    uint32_t kind;
    const uint8_t *bytes;
    size_t length;
} compare_stream_t;

/* Room for what jetdb made of a stream. */
typedef struct {
    uint64_t words[16];
} compare_reading_t;

bool compare_stream(size_t n, compare_stream_t *out);
bool compare_grown(size_t n, size_t mib, compare_stream_t *out);
void compare_give_back(const compare_stream_t *stream);
const uint8_t *compare_table(size_t *length);
void compare_jetdb(const compare_stream_t *stream, compare_reading_t *out);
void compare_drop(compare_reading_t *reading);

/* The library's two readers. */
typedef oskuramos_answer compare_read_blob_t(const uint8_t *, size_t, const uint8_t *, size_t, uint32_t *, size_t, uint32_t *, size_t);
typedef oskuramos_answer compare_read_type_info_t(const uint8_t *, size_t, uint32_t *, size_t);

/* Compares long streams by the library's two readers; false where one differs. */
bool compare_large(compare_read_blob_t *read_blob, compare_read_type_info_t *read_type_info);

/* Compares so many fresh cases of a seed, those of them that are streams, and every stream of compare_stream; false where one differs. */
bool compare_timed(compare_read_blob_t *read_blob, compare_read_type_info_t *read_type_info, size_t count, uint64_t seed);

/* Joins every telling pair of code tables and so many random ones of a seed by the library; false where one differs. */
bool compare_join(oskuramos_answer (*join)(const uint8_t *, size_t, const uint8_t *, size_t, uint8_t *, size_t), size_t count, uint64_t seed);

/* The library's pairing. */
typedef oskuramos_answer compare_pair_t(const uint8_t *, size_t, uint32_t *, size_t, uint32_t, const uint8_t *, size_t, const uint32_t *, size_t,
                                        uint32_t);

/* Pairs so many random pairs of streams of a seed, and as many slices of any words, by the library; false where one differs. */
bool compare_pair(compare_pair_t *pair, size_t count, uint64_t seed);

/* Times the library's pairing against jetdb's merge_controls. */
void compare_pair_bench(compare_pair_t *pair);

/* Rewrites so many random streams of a seed by the library; false where one differs. */
bool compare_rewrite(oskuramos_answer (*rewrite)(const uint8_t *, size_t, uint8_t *, size_t), size_t count, uint64_t seed);

/* Reads so many random comma-separated texts of a seed by the library, and writes those that are read to a file; false where one differs. */
bool compare_csv(oskuramos_answer (*read_csv)(const uint8_t *, size_t, uint32_t *, size_t, uint8_t *, size_t), size_t count, uint64_t seed, const char *file);
/* Lists the differences of so many random triples of a seed, two code tables and a stream, by the library; false where one differs. */
bool compare_differ(oskuramos_answer (*differences)(const uint8_t *, size_t, const uint8_t *, size_t, const uint8_t *, size_t, uint32_t *, size_t),
                    size_t count, uint64_t seed);

/* Judges so many random streams of a seed by the library's panel rules; false where one differs. */
bool compare_panel(compare_read_blob_t *check, size_t count, uint64_t seed);

/* Times the library's panel rules beside its reading. */
void compare_panel_bench(compare_read_blob_t *read, compare_read_blob_t *check);

/* Writes so many random Blobs of a seed as comma-separated text by the library, and what is written to a file; false where one differs. */
typedef oskuramos_answer compare_write_csv_t(const uint8_t *, size_t, const uint8_t *, size_t, uint32_t *, size_t, uint32_t *, size_t, uint8_t *, size_t);
bool compare_write_csv(compare_write_csv_t *write_csv, size_t count, uint64_t seed, const char *file);

/* Times the library's writer of comma-separated text beside its reading. */
void compare_write_csv_bench(compare_read_blob_t *read, compare_write_csv_t *write_csv);

/* Counts so many random streams of a seed by the library into records of totals; false where one differs. */
bool compare_totals(oskuramos_answer (*count)(oskuramos_totals *, const uint8_t *, size_t, const uint8_t *, size_t, uint32_t, uint32_t),
                    size_t n, uint64_t seed);

#endif
