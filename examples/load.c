/* Reads a hott-surface source from standard input and prints what it declares, a line each: place, kind, name, the
   row of its type and, if it has one, of its body.

       ./sulyterom build
       cc -Iinclude -o load examples/load.c target/staticlib/libsulyterom.a
       ./load < examples/naturals.surface */
#include "sulyterom.h"

#include <stdio.h>

enum {
    ROWS = SULYTEROM_ROWS_FOR(SULYTEROM_LONGEST_SOURCE),
    DECLARATIONS = SULYTEROM_DECLARATIONS_FOR(SULYTEROM_LONGEST_SOURCE)
};

/* One byte more than a source may have, so that a longer one is refused. */
static uint8_t source[SULYTEROM_LONGEST_SOURCE + 1];
static sulyterom_row surface[ROWS], core[ROWS];
static sulyterom_declaration declarations[DECLARATIONS];
static uint32_t work[SULYTEROM_WORK_WORDS];
static const sulyterom_tables tables = {surface, ROWS, core, ROWS, declarations, DECLARATIONS, work, SULYTEROM_WORK_WORDS};

static void print_declaration(size_t place) {
    static const char *const kinds[] = {"", "postulate", "transparent", "opaque"};
    const sulyterom_declaration *it = &declarations[place];
    const char *name = (const char *)source + it->name_start;
    printf("%zu %s %.*s %u", place, kinds[it->kind], (int)it->name_length, name, (unsigned)it->type_row);
    if (it->kind != SULYTEROM_POSTULATE) printf(" %u", (unsigned)it->body_row);
    printf("\n");
}

int main(void) {
    size_t length = fread(source, 1, sizeof source, stdin);
    if (ferror(stdin)) {
        perror("standard input");
        return 3;
    }
    sulyterom_loaded loaded = sulyterom_load_into(source, length, &tables);
    if (loaded.refused == SULYTEROM_ACCEPTED) {
        for (size_t place = 0; place < loaded.declarations; place++) print_declaration(place);
        return fflush(stdout) == 0 ? 0 : 3;
    }
    printf("refused %d", (int)loaded.refused);
    if (loaded.has_offset) printf(" at %zu", loaded.offset);
    printf("\n");
    fprintf(stderr, "%s\n", sulyterom_class_text(loaded.refused));
    return 2;
}
