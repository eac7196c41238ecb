/* Reads a hott-surface source from standard input and writes its core text, by which another station can load the
   module without the source. As a station does before it hands a text on, it reads the text again: it must be taken and
   have as many rows and declarations as the source.

       ./sulyterom build
       cc -Iinclude -o core examples/core.c target/staticlib/libsulyterom.a
       ./core < examples/listing.surface */
#include "sulyterom.h"

#include <stdio.h>

enum {
    ROWS = SULYTEROM_ROWS_FOR(SULYTEROM_LONGEST_SOURCE),
    DECLARATIONS = SULYTEROM_DECLARATIONS_FOR(SULYTEROM_LONGEST_SOURCE),
    TEXT = SULYTEROM_TEXT_FOR(SULYTEROM_LONGEST_SOURCE)
};

/* One byte more than a source may have, so that a longer one is refused. */
static uint8_t source[SULYTEROM_LONGEST_SOURCE + 1], text[TEXT];
static sulyterom_row surface[ROWS], core[ROWS];
static sulyterom_declaration declarations[DECLARATIONS];
static uint32_t work[SULYTEROM_WORK_WORDS];
static const sulyterom_tables tables = {surface, ROWS, core, ROWS, declarations, DECLARATIONS, work, SULYTEROM_WORK_WORDS};

int main(void) {
    size_t length = fread(source, 1, sizeof source, stdin);
    if (ferror(stdin)) {
        perror("standard input");
        return 3;
    }
    sulyterom_loaded loaded = sulyterom_load_into(source, length, &tables);
    sulyterom_printed printed = sulyterom_print_into(source, length, &tables, text, sizeof text);
    if (printed.refused != SULYTEROM_ACCEPTED) {
        printf("refused %d", (int)printed.refused);
        if (printed.has_offset) printf(" at %zu", printed.offset);
        printf("\n");
        fprintf(stderr, "%s\n", sulyterom_class_text(printed.refused));
        return 2;
    }
    sulyterom_loaded read = sulyterom_read_canonical_into(text, printed.length, &tables);
    if (read.refused != SULYTEROM_ACCEPTED || read.rows != loaded.rows || read.declarations != loaded.declarations) {
        fprintf(stderr, "the text is not read as it was written\n");
        return 3;
    }
    fwrite(text, 1, printed.length, stdout);
    fprintf(stderr, "%zu rows, %zu declarations\n", read.rows, read.declarations);
    return fflush(stdout) == 0 ? 0 : 3;
}
