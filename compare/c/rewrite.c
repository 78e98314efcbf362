/* Rewrites N random Access 2000 streams by the library: answers and every byte that is lent, against document 02. */
#include "compare.h"

#include <stdlib.h>

int main(int argc, char **argv) {
    if (argc != 3) return 2;
    return compare_rewrite(oskuramos_rewrite, strtoul(argv[1], NULL, 10), strtoull(argv[2], NULL, 10)) ? 0 : 1;
}
