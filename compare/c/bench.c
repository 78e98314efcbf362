/* Times the library against jetdb's own functions, or against another archive of the library, in one process and on the same streams.
   docs/SPEED.md says what is timed. */
#include "compare.h"
#include "oskuramos.h"
#include <malloc.h>
#include <math.h>
#include <stdio.h>
#include <stdlib.h>
#include <string.h>
#include <time.h>

enum { RUNS = 21, MOST_CALLS = 1000, CASES = 20000, SEED = 1 };

/* What a run takes at least, where calls are short, and how long calls that need no rows are timed as one. */
static const double RUN_SECONDS = 0.1, ONE_TIMING = 50e-6;

/* A call this long may be interrupted by other work, so its processor time is taken; for a short one asking for that would take too long. */
static const double LONG_CALL = 1e-3;
static clockid_t timed_by = CLOCK_MONOTONIC;

static const uint8_t *table;
static size_t table_length;

/* An archive's two readers. */
typedef struct {
    compare_read_blob_t *read_blob;
    compare_read_type_info_t *read_type_info;
} archive_t;

/* Those of another archive, under other names; null where none is linked. */
__attribute__((weak)) compare_read_blob_t other_read_blob;
__attribute__((weak)) compare_read_type_info_t other_read_type_info;

static const archive_t library = {oskuramos_read_blob, oskuramos_read_type_info};

/* A stream with the rows that it needs. */
typedef struct {
    compare_stream_t stream;
    size_t controls, properties;
    uint32_t *control_rows, *property_rows;
    bool refused;
    int at_once; /* calls timed as one, of a refused stream */
} task_t;

static double seconds(void) {
    struct timespec now;
    clock_gettime(timed_by, &now);
    return (double)now.tv_sec + 1e-9 * (double)now.tv_nsec;
}

static oskuramos_answer read_by(const archive_t *by, const task_t *t) {
    const compare_stream_t *s = &t->stream;
    if (s->kind == KIND_TYPE_INFO) return by->read_type_info(s->bytes, s->length, t->control_rows, t->controls);
    return by->read_blob(table, table_length, s->bytes, s->length, t->control_rows, t->controls, t->property_rows, t->properties);
}

/* ---- buffers */

static uint32_t *zeroed(size_t words) {
    uint32_t *rows = malloc(4 * words + 4);
    if (rows == NULL) {
        fputs("bench: no memory\n", stderr);
        exit(1);
    }
    return memset(rows, 0, 4 * words + 4);
}

static void lend(task_t *t) {
    t->control_rows = zeroed(t->controls);
    t->property_rows = zeroed(t->properties);
}

static void take_back(task_t *t) {
    free(t->control_rows);
    free(t->property_rows);
    t->control_rows = t->property_rows = NULL;
}

/* How many words the stream needs, by what the library answers where none are lent. */
static void measure(task_t *t) {
    t->controls = t->properties = 0;
    t->control_rows = t->property_rows = NULL;
    oskuramos_answer a = read_by(&library, t);
    bool counted = a.number == 0 || a.number == 6 || a.number == 7;
    t->refused = !counted;
    t->controls = counted ? (t->stream.kind == KIND_TYPE_INFO ? OSKURAMOS_TYPE_INFO_WORDS : OSKURAMOS_CONTROL_WORDS) * (size_t)a.first : 0;
    t->properties = counted ? 6 * (size_t)a.second : 0;
}

/* ---- one call timed */

/* Only the reading: the rows are lent and zeroed before, and what jetdb made is dropped after. Not inlined, so that either archive is called by pointer. */
__attribute__((noinline)) static double reads(const archive_t *by, task_t *t) {
    lend(t);
    double start = seconds();
    read_by(by, t);
    double taken = seconds() - start;
    take_back(t);
    return taken;
}

static double jetdb_reads(task_t *t) {
    compare_reading_t found;
    double start = seconds();
    compare_jetdb(&t->stream, &found);
    double taken = seconds() - start;
    compare_drop(&found);
    return taken;
}

/* All of it: allocating and zeroing the rows, reading, giving the memory back. */
static double library_in_all(task_t *t) {
    double start = seconds();
    lend(t);
    read_by(&library, t);
    take_back(t);
    return seconds() - start;
}

static double jetdb_in_all(task_t *t) {
    compare_reading_t found;
    double start = seconds();
    compare_jetdb(&t->stream, &found);
    compare_drop(&found);
    return seconds() - start;
}

/* A refused stream needs no rows and gives none, so that many calls can be timed as one. */
__attribute__((noinline)) static double refuses(const archive_t *by, task_t *t) {
    double start = seconds();
    for (int i = 0; i < t->at_once; i++) read_by(by, t);
    return (seconds() - start) / t->at_once;
}

static double jetdb_refuses(task_t *t) {
    compare_reading_t found;
    double start = seconds();
    for (int i = 0; i < t->at_once; i++) compare_jetdb(&t->stream, &found);
    return (seconds() - start) / t->at_once;
}

static double library_reads(task_t *t) { return reads(&library, t); }
static double library_refuses(task_t *t) { return refuses(&library, t); }

static archive_t other(void) { return (archive_t){other_read_blob, other_read_type_info}; }

static double other_reads(task_t *t) {
    archive_t by = other();
    return reads(&by, t);
}

static double other_refuses(task_t *t) {
    archive_t by = other();
    return refuses(&by, t);
}

static double library_judges(task_t *t) {
    double start = seconds();
    for (int i = 0; i < t->at_once; i++) oskuramos_well_formed(table, table_length);
    return (seconds() - start) / t->at_once;
}

/* ---- runs */

typedef double timer(task_t *);

/* The least of so many calls' times: whatever else the machine does only adds to them. */
static double least_of(timer *time, task_t *t, int calls) {
    double least = time(t);
    for (int i = 1; i < calls; i++) least = fmin(least, time(t));
    return least;
}

static int between(int least, double n, int most) { return n < least ? least : n > most ? most : (int)n; }

/* The least time of theirs over the least of ours, and how far single runs go from that; the two take turns at going first. */
static void print_ratio(timer *ours, timer *theirs, task_t *t) {
    timer *const side[2] = {ours, theirs};
    clockid_t clock[2];
    double once = 0, best[2] = {INFINITY, INFINITY}, lowest = INFINITY, highest = 0;
    for (int one = 0; one < 2; one++) {
        timed_by = CLOCK_MONOTONIC;
        double taken = side[one](t);
        clock[one] = taken < LONG_CALL ? CLOCK_MONOTONIC : CLOCK_PROCESS_CPUTIME_ID;
        once += taken;
    }
    int calls = between(1, RUN_SECONDS / once, MOST_CALLS);
    for (int run = 0; run < RUNS; run++) {
        double taken[2];
        for (int turn = 0; turn < 2; turn++) {
            int one = (run + turn) % 2;
            timed_by = clock[one];
            taken[one] = least_of(side[one], t, calls);
            best[one] = fmin(best[one], taken[one]);
        }
        lowest = fmin(lowest, taken[1] / taken[0]);
        highest = fmax(highest, taken[1] / taken[0]);
    }
    printf(" %.3g (%.3g to %.3g) |", best[1] / best[0], lowest, highest);
}

static void print_name(const task_t *t) { printf("| %.*s |", (int)t->stream.name_length, t->stream.name); }

static void time_many_at_once(task_t *t) {
    t->at_once = 1;
    t->at_once = between(1, ONE_TIMING / (library_refuses(t) + jetdb_refuses(t)), 1000);
}

static void end_line(void) {
    putchar('\n');
    fflush(stdout);
}

static void compare_on(task_t *t) {
    measure(t);
    print_name(t);
    if (t->refused) {
        time_many_at_once(t);
        print_ratio(library_refuses, jetdb_refuses, t);
        printf(" |");
    } else {
        print_ratio(library_reads, jetdb_reads, t);
        print_ratio(library_in_all, jetdb_in_all, t);
    }
    end_line();
}

static void compare_archives_on(task_t *t) {
    measure(t);
    print_name(t);
    if (t->refused) {
        time_many_at_once(t);
        print_ratio(library_refuses, other_refuses, t);
    } else {
        print_ratio(library_reads, other_reads, t);
    }
    end_line();
}

/* ---- growth */

enum { SIZES = 5, MOST_MIB = 16 };

/* A family's line: the least time of a call of each size over that of 1 MiB. In each run every size is read as often as makes 16 MiB. */
static bool print_growth(size_t family) {
    task_t t[SIZES];
    double best[SIZES];
    for (int size = 0; size < SIZES; size++) {
        if (!compare_grown(family, (size_t)1 << size, &t[size].stream)) return false;
        measure(&t[size]);
        best[size] = INFINITY;
    }
    for (int run = 0; run < RUNS; run++)
        for (int size = 0; size < SIZES; size++) best[size] = fmin(best[size], least_of(library_reads, &t[size], MOST_MIB >> size));
    print_name(&t[0]);
    for (int size = 0; size < SIZES; size++) {
        printf(" %.1f |", best[size] / best[0]);
        compare_give_back(&t[size].stream);
    }
    end_line();
    return true;
}

static int for_each_stream(void on(task_t *)) {
    task_t t;
    for (size_t n = 0; compare_stream(n, &t.stream); n++) {
        on(&t);
        compare_give_back(&t.stream);
    }
    return 0;
}

static int print_ratios(void) {
    puts("| Stream | Reading | With memory |\n|---|---|---|");
    return for_each_stream(compare_on);
}

static int print_against(void) {
    puts("| Stream | The other archive's time over this one's |\n|---|---|");
    return for_each_stream(compare_archives_on);
}

/* Of the time that a refused Blob takes, the part in which the code table is judged. */
static void share_on(task_t *t) {
    measure(t);
    if (!t->refused || t->stream.kind != KIND_BLOB) return;
    time_many_at_once(t);
    print_name(t);
    print_ratio(library_refuses, library_judges, t);
    end_line();
}

static int print_shares(void) {
    puts("| Stream | Judging the table |\n|---|---|");
    return for_each_stream(share_on);
}

/* Rows are lent out of memory that the process keeps: pages fresh from the system would cost more than the reading. */
static int print_growths(void) {
    mallopt(M_MMAP_MAX, 0);
    mallopt(M_TRIM_THRESHOLD, -1);
    timed_by = CLOCK_PROCESS_CPUTIME_ID;
    puts("| Stream | 1 MiB | 2 | 4 | 8 | 16 |\n|---|---|---|---|---|---|");
    for (size_t family = 0; print_growth(family); family++) {}
    return 0;
}

static int print_all(void) {
    print_ratios();
    putchar('\n');
    print_shares();
    putchar('\n');
    return print_growths();
}

/* What is timed must be right. */
static bool agrees(archive_t by) { return compare_timed(by.read_blob, by.read_type_info, CASES, SEED); }

/* All tables, one of them (`ratios`, `shares`, `growth`) or the line of one stream by its number; where another archive is linked, its table. */
int main(int words, char **word) {
    const char *wanted = words < 2 ? "" : word[1];
    task_t t;
    table = compare_table(&table_length);
    if (!agrees(library) || (other_read_blob && !agrees(other()))) return 1;
    putchar('\n');
    if (other_read_blob) return print_against();
    if (!*wanted) return print_all();
    if (!strcmp(wanted, "ratios")) return print_ratios();
    if (!strcmp(wanted, "shares")) return print_shares();
    if (!strcmp(wanted, "growth")) return print_growths();
    if (!compare_stream((size_t)atoi(wanted), &t.stream)) return 1;
    compare_on(&t);
    return 0;
}
