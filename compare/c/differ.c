/* Lists the differences of N random triples of two code tables and a stream by the library, against two plain readings. */
#include "compare.h"

#include <stdlib.h>

int main(int argc, char **argv) {
    if (argc != 3) return 2;
    return compare_differ(oskuramos_differences, strtoul(argv[1], NULL, 10), strtoull(argv[2], NULL, 10)) ? 0 : 1;
}
