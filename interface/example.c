/* Prints the share sheet of the network file on standard input, or `refused` and the number of
   the cause. The exit status is 0 if a sheet was printed, otherwise 1. From the top of the
   repository:

       (cd crates/share_sheet_c && rt lib)
       out=crates/share_sheet_c/out
       cc -I interface interface/example.c $out/libshare_sheet_c.a -o $out/example
       $out/example < examples/path.net */

#include <inttypes.h>
#include <stdio.h>
#include <stdlib.h>

#include "share_sheet.h"

int main(void)
{
    size_t most = share_sheet_max_bytes() + 1; /* a byte more than any network file has */
    size_t entries = share_sheet_max_entries(), text_len = share_sheet_max_text();
    size_t length, buses, lines, bytes = 0;
    uint8_t *file = malloc(most), *text = malloc(text_len);
    uint16_t *table = malloc(entries * sizeof *table);
    uint32_t refused;

    if (file == NULL || text == NULL || table == NULL)
        return EXIT_FAILURE;
    length = fread(file, 1, most, stdin);
    if (ferror(stdin)) {
        perror("example: cannot read");
        return EXIT_FAILURE;
    }
    refused = share_sheet_read(file, length, table, entries, &buses, &lines);
    if (refused == 0)
        refused = share_sheet_whole(table, entries, text, text_len, &bytes);
    if (refused == 0)
        fwrite(text, 1, bytes, stdout);
    else
        printf("refused %" PRIu32 "\n", refused);
    free(file);
    free(text);
    free(table);
    return refused == 0 && fflush(stdout) == 0 ? EXIT_SUCCESS : EXIT_FAILURE;
}
