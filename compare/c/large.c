/* Compares streams around the longest that is taken: the library's answers and rows against jetdb and document 01. */
#include "compare.h"

int main(void) { return compare_large(oskuramos_read_blob, oskuramos_read_type_info) ? 0 : 1; }
