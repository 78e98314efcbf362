/* Judges N random streams by the library's panel rules, against document 02; or times the rules beside the reading. */
#include "compare.h"

#include <stdlib.h>
#include <string.h>

int main(int argc, char **argv) {
    if (argc == 2 && strcmp(argv[1], "bench") == 0) {
        compare_panel_bench(oskuramos_read_blob, oskuramos_check_panel);
        return 0;
    }
    if (argc != 3) return 2;
    return compare_panel(oskuramos_check_panel, strtoul(argv[1], NULL, 10), strtoull(argv[2], NULL, 10)) ? 0 : 1;
}
