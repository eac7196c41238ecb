/* Lends rows and declarations as structs, by the inline functions of sulyterom.h, and compares with the calls that lend
   words: the answer and every word must be equal, for lists of many lengths, and what lies behind the list must stay.
   Whatever is loaded, listed or read alone is so by both readers of sources.
   Then dependences, binders, the listing, reading alone, tokens, module names, the least storage and core text.
   The last line is 'N passed, M failed'. */
#include "sulyterom.h"

#include <stdio.h>
#include <stdlib.h>
#include <string.h>

#define HEAD "(surface 0 1)(module m)"

typedef sulyterom_declaration record;

enum { ROWS = 4096, ROW_WORDS = ROWS * 8, WORK = 16384, RECORDS = 20000, LONG = 65536 };

/* What a call is lent and leaves; the last record is behind the list. */
typedef struct {
    sulyterom_row surface[ROWS], core[ROWS];
    uint32_t work[WORK];
    record list[RECORDS + 1];
} call;

static call words, structs, words2, structs2;
static uint64_t answer[3];
static char text[LONG + 1];
static int passed, failed;
static const record rubbish = {9, 9, 9, 9, 9};

static void fill(call *c) {
    memset(c->surface, 0xa5, sizeof c->surface);
    memset(c->core, 0xa5, sizeof c->core);
    memset(c->work, 0xa5, sizeof c->work);
    for (size_t k = 0; k <= RECORDS; k++) c->list[k] = rubbish;
}

static sulyterom_tables lent(call *c, size_t n) {
    sulyterom_tables tables = {c->surface, ROWS, c->core, ROWS, c->list, n, c->work, WORK};
    return tables;
}

static int left(const call *a, const call *b, size_t n) {
    return !memcmp(a->surface, b->surface, sizeof a->surface) && !memcmp(a->core, b->core, sizeof a->core) &&
           !memcmp(a->work, b->work, sizeof a->work) && !memcmp(a->list, b->list, n * sizeof(record)) &&
           !memcmp(b->list + n, &rubbish, sizeof rubbish);
}

/* Whether three numbers are those of the last call with words. */
static int answers(uint64_t count, uint64_t first, uint64_t second) {
    return answer[0] == count && answer[1] == first && answer[2] == second;
}

static void check(int holds, const char *what, size_t length, size_t n) {
    if (holds) {
        passed++;
    } else {
        failed++;
        printf("records: %s of %zu bytes with %zu records\n", what, length, n);
    }
}

/* Whether a load with structs told what the last one with words did, which returned a number. */
static int as_told(uint8_t number, sulyterom_loaded told) {
    int equal = number == 0 ? answers(2, told.rows, told.declarations) && !told.has_offset && told.offset == 0
                            : answers((uint64_t)told.has_offset, told.offset, 0) && told.rows == 0 && told.declarations == 0;
    return equal && number == told.refused;
}

typedef sulyterom_loaded into(const uint8_t *, size_t, const sulyterom_tables *);

static void loads(const char *source, size_t length, size_t n) {
    static into *const readers[] = {sulyterom_load_into, sulyterom_load_plain_into};
    static const char *const names[] = {"loading", "loading by the plain reader"};
    const uint8_t *s = (const uint8_t *)source;
    fill(&words);
    uint8_t number = sulyterom_load(s, length, &words.surface[0].kind, ROW_WORDS, &words.core[0].kind, ROW_WORDS,
                                    &words.list[0].kind, n * 5, words.work, WORK, answer, 3);
    for (size_t k = 0; k < 2; k++) {
        fill(&structs);
        sulyterom_tables tables = lent(&structs, n);
        sulyterom_loaded told = readers[k](s, length, &tables);
        check(as_told(number, told) && left(&words, &structs, n), names[k], length, n);
    }
}

static void asks(const char *source, size_t length, size_t i, size_t j, size_t n) {
    const uint8_t *s = (const uint8_t *)source;
    fill(&words);
    fill(&structs);
    uint8_t number = sulyterom_depends(s, length, i, j, &words.surface[0].kind, ROW_WORDS, &words.core[0].kind, ROW_WORDS,
                                       &words.list[0].kind, n * 5, words.work, WORK, answer, 3);
    sulyterom_tables tables = lent(&structs, n);
    sulyterom_dependence told = sulyterom_depends_in(s, length, i, j, &tables);
    int equal = number == 0 ? answers((uint64_t)told.yes, told.row, 0) && !told.has_offset && told.offset == 0
                            : answers((uint64_t)told.has_offset, told.offset, 0) && !told.yes && told.row == 0;
    check(equal && number == told.refused && left(&words, &structs, n), "a dependence", length, n);
}

static void binds(const char *source, size_t length, size_t row, size_t n) {
    const uint8_t *s = (const uint8_t *)source;
    fill(&words);
    fill(&structs);
    uint8_t number = sulyterom_binder(s, length, row, &words.surface[0].kind, ROW_WORDS, &words.core[0].kind, ROW_WORDS,
                                      &words.list[0].kind, n * 5, words.work, WORK, answer, 3);
    sulyterom_tables tables = lent(&structs, n);
    sulyterom_binding told = sulyterom_binder_in(s, length, row, &tables);
    int nowhere = !told.has_offset && told.offset == 0, unbound = !told.is_local && told.count == 0 && told.row == 0;
    int equal;
    if (number != 0) {
        equal = answers((uint64_t)told.has_offset, told.offset, 0) && unbound && told.place == 0;
    } else if (told.is_local) {
        equal = answers(2, told.count, told.row) && nowhere && told.place == 0;
    } else {
        equal = answers(1, told.place, 0) && nowhere && unbound;
    }
    check(equal && number == told.refused && left(&words, &structs, n), "a binder", length, n);
}

/* The row that is shown for the third declaration, and the place that it names, which need not be j. */
static void first_row(const char *source, size_t j, size_t row, size_t place) {
    size_t length = strlen(source);
    fill(&structs);
    sulyterom_tables tables = lent(&structs, 3);
    sulyterom_dependence told = sulyterom_depends_in((const uint8_t *)source, length, 2, j, &tables);
    check(told.refused == SULYTEROM_ACCEPTED && told.yes && told.row == row, "the first row", length, 3);
    const sulyterom_row *named = &structs.core[row];
    check(named->kind == SULYTEROM_GLOBAL && named->fields[0] == place, "what the first row names", length, 3);
}

#define TWO HEAD "(postulate a nat)(postulate b (ref a))"

static void dependences(void) {
    static const char other_first[] = TWO "(opaque c (pi x (ref b) (ref a)) (ref a))";
    first_row(other_first, 0, 2, 1);
    first_row(other_first, 1, 2, 1);
    static const char itself_first[] = TWO "(transparent c (pi x (ref a) (ref x)) (app (ref b) (ref a)))";
    first_row(itself_first, 0, 2, 0);
    first_row(itself_first, 1, 5, 1);
    first_row(TWO "(opaque c nat (app (ref b) (ref a)))", 0, 3, 1);
    first_row(TWO "(opaque c (ref b) (ref a))", 0, 2, 1);
}

/* What the answer of the struct says of a source: the form's row is a form of the name. */
static void binders(void) {
    static const char source[] = HEAD "(postulate x nat)(postulate y (pi x (ref x) (lam z (ref x))))";
    fill(&structs);
    sulyterom_tables tables = lent(&structs, 2);
    sulyterom_binding told = sulyterom_binder_in((const uint8_t *)source, sizeof source - 1, 1, &tables);
    check(told.refused == SULYTEROM_ACCEPTED && !told.is_local && told.place == 0, "a declaration", 1, 2);
    told = sulyterom_binder_in((const uint8_t *)source, sizeof source - 1, 2, &tables);
    check(told.refused == SULYTEROM_ACCEPTED && told.is_local && told.count == 1 && told.row == 4, "a binder", 2, 2);
    const sulyterom_row *form = &structs.surface[told.row];
    check(form->kind == SULYTEROM_PI && form->fields[1] == 1 && source[form->fields[0]] == 'x', "a binder's row", 4, 2);
    check(form->offset == (size_t)(strstr(source, "(pi x") - source), "where a binder starts", 4, 2);
    told = sulyterom_binder_in((const uint8_t *)source, sizeof source - 1, 4, &tables);
    check(told.refused == SULYTEROM_NO_DECLARATION && !told.has_offset && !told.is_local, "no reference", 4, 2);
}

static void compares(const char *one, const char *other, size_t m, size_t n) {
    const uint8_t *s = (const uint8_t *)one, *t = (const uint8_t *)other;
    fill(&words);
    fill(&words2);
    fill(&structs);
    fill(&structs2);
    uint8_t number = sulyterom_same(s, strlen(one), t, strlen(other), &words.surface[0].kind, ROW_WORDS,
                                    &words.core[0].kind, ROW_WORDS, &words.list[0].kind, m * 5, &words2.surface[0].kind,
                                    ROW_WORDS, &words2.core[0].kind, ROW_WORDS, &words2.list[0].kind, n * 5, words.work,
                                    WORK, answer, 3);
    sulyterom_tables tables = lent(&structs, m), tables2 = lent(&structs2, n);
    sulyterom_comparison told = sulyterom_same_in(s, strlen(one), t, strlen(other), &tables, &tables2);
    int equal;
    if (number == 0) {
        equal = answers((uint64_t)!told.same, told.declaration, 0) && told.which == 0 && !told.has_offset;
    } else {
        equal = answers((uint64_t)(1 + told.has_offset), (uint64_t)told.which, told.offset) && !told.same;
    }
    int kept = left(&words, &structs, m) && left(&words2, &structs2, n);
    check(equal && number == told.refused && kept, "a comparison", strlen(one), m);
}

typedef sulyterom_listed list_into(const uint8_t *, size_t, const sulyterom_tables *, uint8_t *, size_t);

/* The listing by one reader, in a buffer of some bytes; it leaves what loading does. */
static void lists_by(list_into *by, const char *source, const char *listing, sulyterom_class number, size_t bytes) {
    static uint8_t room[1000];
    const size_t length = strlen(source), long_as = strlen(listing), fits = bytes < long_as ? bytes : long_as;
    fill(&words);
    fill(&structs);
    memset(room, 0xa5, sizeof room);
    sulyterom_tables loaded = lent(&words, 3), tables = lent(&structs, 3);
    sulyterom_loaded alone = sulyterom_load_into((const uint8_t *)source, length, &loaded);
    sulyterom_listed told = by((const uint8_t *)source, length, &tables, room, bytes);
    check(told.loaded.refused == number && alone.refused == number, "a listing's class", length, bytes);
    check(told.loaded.has_offset == alone.has_offset && told.loaded.offset == alone.offset &&
              told.loaded.rows == alone.rows && told.loaded.declarations == alone.declarations,
          "a listing's values", length, bytes);
    check(told.length == fits && told.is_cut == (fits < long_as), "a listing's length", length, bytes);
    check(!memcmp(room, listing, fits) && (fits == sizeof room || room[fits] == 0xa5), "a listing", length, bytes);
    check(left(&words, &structs, 3), "a listing's tables", length, bytes);
}

/* With all the room it needs, just so much, one byte less, and none. */
static void lists(const char *source, const char *listing, sulyterom_class number) {
    const size_t long_as = strlen(listing), rooms[] = {1000, long_as, long_as - 1, 0};
    for (size_t k = 0; k < sizeof rooms / sizeof rooms[0]; k++) {
        lists_by(sulyterom_list_into, source, listing, number, rooms[k]);
        lists_by(sulyterom_list_plain_into, source, listing, number, rooms[k]);
    }
}

typedef uint8_t parse(const uint8_t *, size_t, uint32_t *, size_t, uint32_t *, size_t, uint32_t *, size_t, uint64_t *,
                      size_t);

/* Reading alone: names are not looked at, and the surface table is that of loading. */
static void parses_by(parse *by, const char *source, uint8_t number) {
    fill(&words);
    fill(&structs);
    const uint8_t *s = (const uint8_t *)source;
    sulyterom_tables tables = lent(&structs, 3);
    sulyterom_loaded told = sulyterom_load_into(s, strlen(source), &tables);
    uint8_t read = by(s, strlen(source), &words.surface[0].kind, ROW_WORDS, &words.list[0].kind, 15, words.work, WORK,
                      answer, 3);
    check(read == number, "reading alone", strlen(source), 3);
    if (told.refused == SULYTEROM_ACCEPTED) {
        check(answers(2, told.rows, told.declarations), "reading alone: the counts", strlen(source), 3);
        check(!memcmp(words.surface, structs.surface, sizeof words.surface) &&
                  !memcmp(words.list, structs.list, sizeof words.list),
              "reading alone: the tables", strlen(source), 3);
    }
}

static void parses(const char *source, uint8_t number) {
    parses_by(sulyterom_parse, source, number);
    parses_by(sulyterom_parse_plain, source, number);
}

/* Printing and reading with structs and with words. */
static void prints(const char *source, size_t n, size_t room) {
    static uint8_t by_words[1000], by_structs[1000];
    const uint8_t *s = (const uint8_t *)source;
    const size_t length = strlen(source);
    fill(&words);
    fill(&structs);
    memset(by_words, 0xa5, sizeof by_words);
    memset(by_structs, 0xa5, sizeof by_structs);
    uint8_t number = sulyterom_print(s, length, &words.surface[0].kind, ROW_WORDS, &words.core[0].kind, ROW_WORDS,
                                     &words.list[0].kind, n * 5, words.work, WORK, by_words, room, answer, 3);
    sulyterom_tables tables = lent(&structs, n);
    sulyterom_printed told = sulyterom_print_into(s, length, &tables, by_structs, room);
    int equal = number == 0 ? answers(1, told.length, 0) && !told.has_offset && told.offset == 0
                            : answers((uint64_t)told.has_offset, told.offset, 0) && told.length == 0;
    check(equal && number == told.refused && left(&words, &structs, n), "printing", length, n);
    check(!memcmp(by_words, by_structs, sizeof by_words), "a printed text", length, n);
}

static void reads(const char *source, size_t n) {
    const uint8_t *s = (const uint8_t *)source;
    const size_t length = strlen(source);
    for (int canonical = 0; canonical < 2; canonical++) {
        fill(&words);
        fill(&structs);
        sulyterom_tables tables = lent(&structs, n);
        uint8_t number = (canonical ? sulyterom_read_canonical : sulyterom_read_core)(
            s, length, &words.core[0].kind, ROW_WORDS, &words.list[0].kind, n * 5, words.work, WORK, answer, 3);
        sulyterom_loaded told = (canonical ? sulyterom_read_canonical_into : sulyterom_read_core_into)(s, length, &tables);
        check(as_told(number, told) && left(&words, &structs, n), "reading a text", length, n);
    }
}

/* What is printed is read, with numerals and names where the text has them. */
static void core_text(void) {
    static const char source[] = HEAD "(postulate x nat)(opaque long_name (pi x (ref x) (universe 10)) (lam x (ref x)))";
    static uint8_t text_of[SULYTEROM_TEXT_FOR(sizeof source)];
    static const char *const names[] = {"x\"", "long_name\""};
    static const char *const terms[] = {"nat)", "(global 0) ", "(universe 10)", "(pi (", "(var 0)", "(lam "};
    fill(&structs);
    sulyterom_tables tables = lent(&structs, 2);
    sulyterom_printed printed =
        sulyterom_print_into((const uint8_t *)source, sizeof source - 1, &tables, text_of, sizeof text_of);
    const char *first = (const char *)text_of;
    check(printed.refused == SULYTEROM_ACCEPTED && printed.length == strlen(first), "printing", sizeof source - 1, 2);
    sulyterom_loaded read = sulyterom_read_canonical_into(text_of, printed.length, &tables);
    check(read.rows == 6 && read.declarations == 2, "reading what was printed", printed.length, 2);
    for (size_t k = 0; k < read.rows; k++) {
        check(structs.core[k].offset == (size_t)(strstr(first, terms[k]) - first), "the offset of a text's row", k, 2);
    }
    for (size_t d = 0; d < read.declarations; d++) {
        const record *it = &structs.list[d];
        check(it->name_start == (size_t)(strstr(first, names[d]) - first), "where a name stands", d, 2);
        check(it->name_length == strlen(names[d]) - 1, "the length of a name", d, 2);
    }
    const sulyterom_row *universe = &structs.core[2];
    check(universe->kind == SULYTEROM_UNIVERSE && universe->fields[1] == 2 && !memcmp(first + universe->fields[0], "10", 2),
          "a numeral", 2, 2);
    check(structs.core[1].kind == SULYTEROM_GLOBAL && structs.core[1].fields[1] == 1, "a global's numeral", 1, 2);
    check(structs.core[4].kind == SULYTEROM_VAR && first[structs.core[4].fields[0]] == '0', "a var's numeral", 4, 2);

    static const size_t rooms[] = {0, 64, 65, 100, 1000};
    static const char *const sources[] = {source, HEAD, "(", HEAD "(postulate a (ref q))", "(surface 1 0)"};
    for (size_t k = 0; k < sizeof sources / sizeof sources[0]; k++) {
        for (size_t r = 0; r < sizeof rooms / sizeof rooms[0]; r++) {
            prints(sources[k], 1, rooms[r]);
            prints(sources[k], 2, rooms[r]);
            prints(sources[k], 13108, rooms[r]);
        }
    }
    static char changed[sizeof text_of + 1];
    for (size_t k = 0; k <= printed.length; k++) {
        static const char bytes[] = "( )a0\"\\\n";
        strcpy(changed, first);
        changed[k] = 0;
        reads(changed, 2);
        strcpy(changed, first);
        changed[k] = bytes[k % (sizeof bytes - 1)];
        reads(changed, 1 + k % 3);
    }
    reads(first, 13108);
}

static void tokens(void) {
    static const char source[] = "(a-1 ; x\n)]";
    const uint8_t *s = (const uint8_t *)source;
    const size_t length = sizeof source - 1;
    sulyterom_token_read told = sulyterom_token_at(s, length, 0);
    check(told.refused == 0 && told.kind == SULYTEROM_LEFT_PARENTHESIS && told.start == 0 && told.end == 1, "a token", 0, 0);
    told = sulyterom_token_at(s, length, 1);
    check(told.refused == 0 && told.kind == SULYTEROM_ATOM && told.start == 1 && told.end == 4, "a token", 1, 0);
    told = sulyterom_token_at(s, length, 4);
    check(told.refused == 0 && told.kind == SULYTEROM_RIGHT_PARENTHESIS && told.start == 9 && told.end == 10, "a token", 4, 0);
    told = sulyterom_token_at(s, length, 10);
    check(told.refused == SULYTEROM_MALFORMED && told.offset == 10, "a token", 10, 0);
    told = sulyterom_token_at(s, length, length);
    check(told.refused == 0 && told.kind == SULYTEROM_END && told.start == length && told.end == length, "a token", length, 0);
}

static void module_names(void) {
    static const char source[] = "(surface 0 1) ; 1\n(module a_1 ) ]";
    const uint8_t *s = (const uint8_t *)source;
    const size_t length = sizeof source - 1;
    sulyterom_module_name told = sulyterom_head_of(s, length);
    check(told.refused == 0 && told.start == 26 && told.length == 3 && !told.has_offset && !told.offset, "a module's name", 0, 0);
    told = sulyterom_head_of(s, 30);
    check(told.refused == SULYTEROM_MALFORMED && told.has_offset && told.offset == 30 && !told.length, "a head cut off", 1, 0);
    told = sulyterom_head_of((const uint8_t *)"(surface 0 3)", 13);
    check(told.refused == SULYTEROM_VERSION && !told.has_offset && !told.offset && !told.start, "another version", 2, 0);
    told = sulyterom_head_of((const uint8_t *)"(surface 0 2)(module x)(arrow", 29);
    check(told.refused == 0 && told.start == 21 && told.length == 1, "a module's name in 0 2", 4, 0);
    told = sulyterom_head_of((const uint8_t *)"(surface 0 2)(module arrow)", 27);
    check(told.refused == SULYTEROM_RESERVED_NAME && told.offset == 21, "a word reserved in 0 2", 5, 0);
    told = sulyterom_head_of(s, 0);
    check(told.refused == SULYTEROM_MALFORMED && told.has_offset && told.offset == 0, "an empty source", 3, 0);
}

/* The least storage of a source, and a load with it. */
static void storages(void) {
    static const char source[] = HEAD "(postulate x nat)(opaque y (pi x (ref x) (ref x)) (lam z (fst (ref z))))";
    const uint8_t *s = (const uint8_t *)source;
    const size_t length = sizeof source - 1;
    fill(&structs);
    sulyterom_needs told = sulyterom_storage_of(s, length, structs.work, WORK);
    check(told.refused == 0 && told.rows == 7 && told.declarations == 2 && told.frames == 2, "the least storage", length, 0);
    check(!told.has_offset && !told.offset, "the least storage without an offset", length, 0);
    size_t left_over = 0;
    for (size_t k = 0; k < WORK; k++) left_over += structs.work[k] != 0;
    check(left_over == 0, "the work area behind the least storage", length, 0);
    check(told.rows <= SULYTEROM_ROWS_FOR(length) && told.declarations <= SULYTEROM_DECLARATIONS_FOR(length), "the rule of thumb", length, 0);
    sulyterom_tables tables = {structs.surface, told.rows, structs.core, told.rows, structs.list, told.declarations, structs.work, WORK};
    sulyterom_loaded loaded = sulyterom_load_into(s, length, &tables);
    check(loaded.refused == 0 && loaded.rows == 7 && loaded.declarations == 2, "a load with the least storage", length, 2);
    tables.surface_rows--;
    check(sulyterom_load_into(s, length, &tables).refused == SULYTEROM_SURFACE_FULL, "a row less", length, 2);
    tables.declaration_records--;
    check(sulyterom_load_into(s, length, &tables).refused == SULYTEROM_DECLARATIONS_FULL, "a row and a record less", length, 1);
    told = sulyterom_storage_of(s, length - 1, structs.work, WORK);
    check(told.refused == SULYTEROM_MALFORMED && told.has_offset && told.offset == length - 1 && !told.rows && !told.declarations && !told.frames, "the storage of a source cut off", length - 1, 0);
    told = sulyterom_storage_of(s, length, structs.work, WORK - 1);
    check(told.refused == SULYTEROM_WORK_SHORT && !told.has_offset && !told.offset && !told.rows, "the storage by a short work area", length, 0);
}

/* Where terms start, by the rows of both tables. */
static void offsets(void) {
    static const char source[] = HEAD "(postulate x nat)(postulate y (pi x (ref x) (ref x)))";
    static const char *const terms[] = {"nat", "(ref x) ", "(ref x))", "(pi x (ref x) (ref x))"};
    fill(&structs);
    sulyterom_tables tables = lent(&structs, 2);
    sulyterom_loaded told = sulyterom_load_into((const uint8_t *)source, sizeof source - 1, &tables);
    check(told.rows == 4, "rows with offsets", sizeof source - 1, 2);
    for (size_t k = 0; k < told.rows; k++) {
        const char *term = strstr(source, terms[k]);
        check(term && structs.surface[k].offset == (size_t)(term - source), "the offset of a surface row", k, 2);
        check(structs.core[k].offset == structs.surface[k].offset, "the offset of a core row", k, 2);
        check((&structs.core[k].kind)[SULYTEROM_ROW_OFFSET] == structs.core[k].offset, "the word of the offset", k, 2);
    }
    check(structs.surface[4].offset == 0 && structs.core[4].offset == 0, "the offset of a spare row", 4, 2);
}

/* Every class has words of its own, and other numbers have none. */
static void classes(void) {
    for (int k = 0; k <= 14; k++) {
        const char *text_of = sulyterom_class_text((sulyterom_class)k);
        int alone = *text_of != 0;
        for (int other = 0; other < k; other++) alone = alone && strcmp(text_of, sulyterom_class_text((sulyterom_class)other));
        check(alone, "the text of a class", (size_t)k, 0);
    }
    check(*sulyterom_class_text((sulyterom_class)15) == 0, "the text of no class", 15, 0);
    char version[32];
    sprintf(version, "%d.%d.%d", SULYTEROM_VERSION_MAJOR, SULYTEROM_VERSION_MINOR, SULYTEROM_VERSION_PATCH);
    check(strcmp(version, SULYTEROM_VERSION_TEXT) == 0, "the version", 0, 0);
}

/* Few, as many as the sources have, and more than a source can have. */
static const size_t lengths[] = {0, 1, 2, 3, 4, 256, 3852, 3853, 13106, 13107, 13108, RECORDS};
enum { LENGTHS = sizeof lengths / sizeof lengths[0] };

static void at_all_lengths(const char *source, size_t length) {
    for (size_t k = 0; k < LENGTHS; k++) loads(source, length, lengths[k]);
}

/* As many postulates as are wanted, or as fit in 65,535 bytes. */
static size_t module(size_t wanted) {
    size_t at = (size_t)sprintf(text, "(surface 0 1)(module m)");
    for (size_t k = 0; k < wanted && at + 21 < LONG; k++) at += (size_t)sprintf(text + at, "(postulate %c%zu nat)", 'a', k);
    return at;
}

int main(void) {
    classes();
    tokens();
    module_names();
    storages();
    offsets();
    dependences();
    binders();
    core_text();
    lists(HEAD "(postulate x nat)(postulate y (pi x (ref x) (ref x)))",
          "nodes 4 declarations 2\n0 nat\n1 global 0\n2 var 0\n3 pi 1 2\n0 postulate x 0\n1 postulate y 3\n",
          SULYTEROM_ACCEPTED);
    lists(HEAD "(postulate nat nat)", "refused 3 at 34\n", SULYTEROM_RESERVED_NAME);
    lists(HEAD "(postulate x (ref q))", "refused 5\n", SULYTEROM_UNKNOWN_NAME);
    parses(HEAD "(postulate x nat)(postulate y (pi x (ref x) (ref x)))", 0);
    parses(HEAD "(postulate x (ref q))(postulate x nat)", 0);
    parses(HEAD "(postulate nat nat)", SULYTEROM_RESERVED_NAME);
    static const char input[] = HEAD "(postulate x nat)(postulate y (pi x (ref x) (ref x)))(opaque z (ref y) (ref x))";
    static const char *const others[] = {HEAD, HEAD "(postulate a (ref q))", HEAD "(postulate a nat)(postulate a nat)", "(surface 1 0)", HEAD "(postulate nat nat)"};
    static const char bytes[] = "( )a0;]\n\xc3";
    size_t length = sizeof input - 1;
    char damaged[sizeof input];
    for (size_t k = 0; k < sizeof others / sizeof others[0]; k++) at_all_lengths(others[k], strlen(others[k]));
    for (size_t k = 0; k <= length; k++) loads(input, k, 3);
    at_all_lengths(input, length);
    for (size_t k = 0; k < length; k++) {
        for (size_t b = 0; b + 1 < sizeof bytes; b++) {
            memcpy(damaged, input, sizeof input);
            damaged[k] = bytes[b];
            loads(damaged, length, 2 + b % 3);
        }
    }
    for (size_t i = 0; i < 4; i++) {
        for (size_t j = 0; j < 4; j++) {
            asks(input, length, i, j, 2);
            asks(input, length, i, j, 3);
            asks(input, length, i, j, 13108);
        }
    }
    for (size_t row = 0; row < 9; row++) {
        binds(input, length, row, 2);
        binds(input, length, row, 3);
        binds(input, length, row, 13108);
        binds(input, length - row, row, 3);
    }
    for (size_t k = 0; k < sizeof others / sizeof others[0]; k++) {
        binds(others[k], strlen(others[k]), 0, 3);
        compares(others[k], input, 2, 3);
        compares(input, others[k], 3, 13108);
        compares(input, input, 2, 3);
        compares(input, input, 4, 3);
        compares(others[k], others[k], 20000, 0);
    }
    static const size_t counts[] = {1, 255, 256, 257, 3000, 5000};
    for (size_t k = 0; k < sizeof counts / sizeof counts[0]; k++) {
        size_t n = module(counts[k]);
        at_all_lengths(text, n);
    }
    memset(text, ' ', LONG);
    loads(text, LONG, 3);
    printf("%d passed, %d failed\n", passed, failed);
    return failed != 0;
}
