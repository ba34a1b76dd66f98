// One call of the proved transforms, for valgrind's callgrind to count: counted SET NUMBER SHARE does a forward transform of the first SHARE rows and an
// inverse one that gives the first SHARE rows, where SHARE is `all` or `half` of the rows.
#include <stddef.h>
#include <stdint.h>
#include <stdio.h>
#include <stdlib.h>
#include <string.h>

size_t measured_table_length(size_t set, size_t i);
void measured_tables(size_t set, size_t i, uint32_t *out, size_t out_length);
void measured_send(size_t set, size_t i, const uint32_t *tables, size_t tables_length, uint32_t *x, size_t x_length, size_t n);
void measured_recover(size_t set, size_t i, const uint32_t *tables, size_t tables_length, uint32_t *x, size_t x_length, size_t m);

int main(int count, char **words) {
    if (count < 4) return 2;
    size_t set = strtoul(words[1], NULL, 10), i = strtoul(words[2], NULL, 10);
    size_t length = measured_table_length(set, i);
    size_t rows = (length - 264) / 257, size = rows * 256;
    size_t used = strcmp(words[3], "half") == 0 ? (rows + 1) / 2 * 256 : size;
    static uint32_t tables[4096], x[4096];
    for (size_t j = 0; j < size; j++) x[j] = (uint32_t)(j * 40503 % 65536);
    measured_tables(set, i, tables, length);
    measured_send(set, i, tables, length, x, size, used);
    measured_recover(set, i, tables, length, x, size, used);
    printf("%zu\n", size);
    return 0;
}
