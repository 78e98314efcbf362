/* Pairs controls with TypeInfo by the library: against document 02 and jetdb's merge_controls, or timed against the latter. */
#include "compare.h"

#include <stdlib.h>
#include <string.h>

int main(int argc, char **argv) {
    if (argc == 2 && strcmp(argv[1], "bench") == 0) {
        compare_pair_bench(oskuramos_pair);
        return 0;
    }
    if (argc != 3) return 2;
    return compare_pair(oskuramos_pair, strtoul(argv[1], NULL, 10), strtoull(argv[2], NULL, 10)) ? 0 : 1;
}
