/* Counts N random streams by the library into records of totals: answers and every number, against document 02. */
#include "compare.h"

#include <stdlib.h>

int main(int argc, char **argv) {
    if (argc != 3) return 2;
    return compare_totals(oskuramos_count_blob, strtoul(argv[1], NULL, 10), strtoull(argv[2], NULL, 10)) ? 0 : 1;
}
