/* Writes N random Blobs as comma-separated text by the library: answers and every word and byte that is lent, against document 02. What is written goes to a
   file. Or times the writing beside the reading. */
#include "compare.h"

#include <stdlib.h>
#include <string.h>

int main(int argc, char **argv) {
    if (argc == 2 && strcmp(argv[1], "bench") == 0) {
        compare_write_csv_bench(oskuramos_read_blob, oskuramos_write_csv);
        return 0;
    }
    if (argc != 4) return 2;
    return compare_write_csv(oskuramos_write_csv, strtoul(argv[1], NULL, 10), strtoull(argv[2], NULL, 10), argv[3]) ? 0 : 1;
}
