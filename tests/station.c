/* Loads sources, and prints and reads core texts, through the static library, as a station's program does, and looks at
   every word that a call leaves; every load is made by both readers. Built as C and as C++. The last line is 'N passed,
   M failed'. */
#include "sulyterom.h"
#include "sulyterom.h" /* twice is once */

#include <stdio.h>
#include <string.h>

enum { SURFACE = 5 * 8 + 3, CORE = 4 * 8, DECLARATIONS = 3 * 5 + 4, WORK = 16384, LONG = 65536 };

static uint32_t surface[SURFACE], core[CORE], declarations[DECLARATIONS], work[WORK];
static uint64_t answer[3];
static char text[LONG + 1];
static int passed, failed;

#define HEAD "(surface 0 1)(module m)"
#define HEAD_0_2 "(surface 0 2)(module m)"
static const char input[] = HEAD "(postulate x nat)(postulate y (pi x (ref x) (ref x)))";

/* What documents 01 and 02 say of the input; the words behind these are 0. */
static const uint32_t surface_rows[SURFACE] = {
    19, 0,  0, 0, 0, 0, 0, 36, /* nat */
    24, 64, 1, 0, 0, 0, 0, 59, /* (ref x), in the domain */
    24, 72, 1, 0, 0, 0, 0, 67, /* (ref x), in the codomain */
    4,  57, 1, 1, 2, 0, 0, 53, /* (pi x ..) */
};
static const uint32_t core_rows[CORE] = {
    19, 0, 0, 0, 0, 0, 0, 36, /* nat */
    2,  0, 0, 0, 0, 0, 0, 59, /* global 0 */
    1,  0, 0, 0, 0, 0, 0, 67, /* var 0 */
    4,  1, 2, 0, 0, 0, 0, 53, /* pi */
};
static const uint32_t records[DECLARATIONS] = {
    1, 34, 1, 0, 0, /* postulate x */
    1, 51, 1, 3, 0, /* postulate y */
};
static const uint32_t nothing[WORK] = {0};

/* The core text of the input, and what reading it leaves: the same, but for where things stand, and with the numerals of
   var and global in the place of their numbers. */
#define TEXT_HEAD "(hott-core (format 0 1) (theory \"mltt-core\" 0 1) (declarations"
static const char core_text[] = TEXT_HEAD " (postulate \"x\" nat) (postulate \"y\" (pi (global 0) (var 0)))))\n";
static const uint32_t text_rows[CORE] = {
    19, 0,   0, 0, 0, 0, 0, 78,  /* nat */
    2,  110, 1, 0, 0, 0, 0, 102, /* global 0 */
    1,  118, 1, 0, 0, 0, 0, 113, /* var 0 */
    4,  1,   2, 0, 0, 0, 0, 98,  /* pi */
};
static const uint32_t text_records[DECLARATIONS] = {
    1, 75, 1, 0, 0, /* postulate x */
    1, 95, 1, 3, 0, /* postulate y */
};

/* Document 01's numbers, from 1 on. */
static const int kinds[] = {
    SULYTEROM_VAR,  SULYTEROM_GLOBAL,   SULYTEROM_UNIVERSE,  SULYTEROM_PI,    SULYTEROM_LAM,
    SULYTEROM_APP,  SULYTEROM_SIGMA,    SULYTEROM_PAIR,      SULYTEROM_FST,   SULYTEROM_SND,
    SULYTEROM_ID,   SULYTEROM_REFL,     SULYTEROM_J,         SULYTEROM_EMPTY, SULYTEROM_EMPTY_ELIM,
    SULYTEROM_UNIT, SULYTEROM_STAR,     SULYTEROM_UNIT_ELIM, SULYTEROM_NAT,   SULYTEROM_ZERO,
    SULYTEROM_SUCC, SULYTEROM_NAT_ELIM, SULYTEROM_ANN,       SULYTEROM_REF,   SULYTEROM_ARROW,
};
static const int classes[] = {
    SULYTEROM_MALFORMED,         SULYTEROM_VERSION,     SULYTEROM_RESERVED_NAME, SULYTEROM_DUPLICATE_NAME,
    SULYTEROM_UNKNOWN_NAME,      SULYTEROM_LONG_SOURCE, SULYTEROM_FRAMES,        SULYTEROM_SURFACE_FULL,
    SULYTEROM_DECLARATIONS_FULL, SULYTEROM_CORE_SHORT,  SULYTEROM_WORK_SHORT,    SULYTEROM_NO_DECLARATION,
    SULYTEROM_CORE_TEXT,         SULYTEROM_TEXT_SHORT,
};
static const int declaration_kinds[] = {SULYTEROM_POSTULATE, SULYTEROM_TRANSPARENT, SULYTEROM_OPAQUE};

static void check(const char *what, int holds) {
    if (holds) {
        passed++;
    } else {
        failed++;
        printf("station: %s\n", what);
    }
}

static int count_from_one(const int *numbers, size_t count) {
    for (size_t i = 0; i < count; i++) {
        if (numbers[i] != (int)i + 1) return 0;
    }
    return 1;
}
#define COUNT_FROM_ONE(numbers) count_from_one(numbers, sizeof(numbers) / sizeof(numbers)[0])

/* How many words of each table are lent. */
typedef struct {
    size_t surface, core, declarations, work;
} lengths;
static const lengths whole = {SURFACE, CORE, DECLARATIONS, WORK};

/* The second source's. */
static uint32_t surface2[SURFACE], core2[CORE], declarations2[DECLARATIONS];

/* Every call finds rubbish. */
static void fill(void) {
    memset(surface2, 0xa5, sizeof surface2);
    memset(core2, 0xa5, sizeof core2);
    memset(declarations2, 0xa5, sizeof declarations2);
    memset(surface, 0xa5, sizeof surface);
    memset(core, 0xa5, sizeof core);
    memset(declarations, 0xa5, sizeof declarations);
    memset(work, 0xa5, sizeof work);
    memset(answer, 0xa5, sizeof answer);
}

/* A function that reads a source, or a core text, into rows of one table. */
typedef uint8_t reader(const uint8_t *, size_t, uint32_t *, size_t, uint32_t *, size_t, uint32_t *, size_t, uint64_t *,
                       size_t);

static uint8_t parse_by(reader *by, const char *source, lengths lent, size_t room) {
    fill();
    return by((const uint8_t *)source, strlen(source), surface, lent.surface, declarations, lent.declarations, work,
              lent.work, answer, room);
}

static uint8_t load_by(sulyterom_load_function *by, const char *source, lengths lent, size_t room) {
    fill();
    return by((const uint8_t *)source, strlen(source), surface, lent.surface, core, lent.core, declarations,
              lent.declarations, work, lent.work, answer, room);
}

/* Every word that a call can have written, and what it returned. */
typedef struct {
    uint64_t number, answer[3];
    uint32_t surface[SURFACE], core[CORE], declarations[DECLARATIONS], work[WORK];
} left;

static void keep(left *all, uint8_t number) {
    all->number = number;
    memcpy(all->answer, answer, sizeof answer);
    memcpy(all->surface, surface, sizeof surface);
    memcpy(all->core, core, sizeof core);
    memcpy(all->declarations, declarations, sizeof declarations);
    memcpy(all->work, work, sizeof work);
}

/* Loads, and reads alone, by both readers, which must return and leave the same: in the answer, in what is lent and
   behind it. What the plain one left by loading stays, for the caller to look at. */
static uint8_t load_into(const char *source, lengths lent, size_t room) {
    static left frames, plain;
    keep(&frames, parse_by(sulyterom_parse, source, lent, room));
    keep(&plain, parse_by(sulyterom_parse_plain, source, lent, room));
    check("reading alone by both readers", !memcmp(&frames, &plain, sizeof frames));
    keep(&frames, load_by(sulyterom_load, source, lent, room));
    keep(&plain, load_by(sulyterom_load_plain, source, lent, room));
    check("loading by both readers", !memcmp(&frames, &plain, sizeof frames));
    return (uint8_t)plain.number;
}

static uint8_t load(const char *source, lengths lent) {
    return load_into(source, lent, 3);
}

static uint8_t depends(const char *source, size_t i, size_t j, lengths lent) {
    fill();
    return sulyterom_depends((const uint8_t *)source, strlen(source), i, j, surface, lent.surface, core, lent.core,
                             declarations, lent.declarations, work, lent.work, answer, 3);
}

static uint8_t binder(const char *source, size_t row, lengths lent) {
    fill();
    return sulyterom_binder((const uint8_t *)source, strlen(source), row, surface, lent.surface, core, lent.core,
                            declarations, lent.declarations, work, lent.work, answer, 3);
}

/* The buffer that is printed into. */
static uint8_t buffer[200];

static uint8_t print(const char *source, lengths lent, size_t room) {
    fill();
    memset(buffer, 0xa5, sizeof buffer);
    return sulyterom_print((const uint8_t *)source, strlen(source), surface, lent.surface, core, lent.core, declarations,
                           lent.declarations, work, lent.work, buffer, room, answer, 3);
}

static uint8_t read_text(reader *by, const char *source, lengths lent) {
    fill();
    return by((const uint8_t *)source, strlen(source), core, lent.core, declarations, lent.declarations, work, lent.work,
              answer, 3);
}

static uint8_t same(const char *first, const char *second) {
    fill();
    return sulyterom_same((const uint8_t *)first, strlen(first), (const uint8_t *)second, strlen(second), surface,
                          SURFACE, core, CORE, declarations, DECLARATIONS, surface2, SURFACE, core2, CORE,
                          declarations2, DECLARATIONS, work, WORK, answer, 3);
}

static int answers(uint64_t count, uint64_t first, uint64_t second) {
    return answer[0] == count && answer[1] == first && answer[2] == second;
}

/* Whether a table holds these words where it was lent, and rubbish behind. */
static int holds(const uint32_t *table, size_t length, size_t lent, const uint32_t *words) {
    for (size_t i = lent; i < length; i++) {
        if (table[i] != 0xa5a5a5a5u) return 0;
    }
    return memcmp(table, words, lent * sizeof *table) == 0;
}

static int hold(lengths lent, const uint32_t *rows, const uint32_t *resolved, const uint32_t *declared) {
    return holds(surface, SURFACE, lent.surface, rows) && holds(core, CORE, lent.core, resolved) &&
           holds(declarations, DECLARATIONS, lent.declarations, declared) && holds(work, WORK, lent.work, nothing);
}

/* Whether the buffer holds a text where it was lent, 0 behind the text, and rubbish behind that. */
static int text_holds(const char *expected, size_t room) {
    size_t length = strlen(expected);
    for (size_t i = length; i < sizeof buffer; i++) {
        if (buffer[i] != (i < room ? 0 : 0xa5)) return 0;
    }
    return memcmp(buffer, expected, length) == 0;
}

/* Whether reading a text leaves these words, and no surface row. */
static int read_hold(lengths lent, const uint32_t *rows, const uint32_t *declared) {
    return holds(surface, SURFACE, 0, nothing) && holds(core, CORE, lent.core, rows) &&
           holds(declarations, DECLARATIONS, lent.declarations, declared) && holds(work, WORK, lent.work, nothing);
}

/* A refusal of printing, which leaves 0 in the buffer too. */
static void refuses_to_print(const char *what, const char *source, lengths lent, size_t room, uint8_t number, int offset) {
    int told = print(source, lent, room) == number;
    told = told && (offset < 0 ? answers(0, 0, 0) : answers(1, (uint64_t)offset, 0));
    check(what, told && hold(lent, nothing, nothing, nothing) && text_holds("", room));
}

/* A refusal by both readers of core texts. */
static void refuses_to_read(const char *what, const char *source, lengths lent, uint8_t number, int offset) {
    static reader *const readers[] = {sulyterom_read_core, sulyterom_read_canonical};
    for (size_t k = 0; k < 2; k++) {
        int told = read_text(readers[k], source, lent) == number;
        told = told && (offset < 0 ? answers(0, 0, 0) : answers(1, (uint64_t)offset, 0));
        check(what, told && read_hold(lent, nothing, nothing));
    }
}

static int second_hold(const uint32_t *rows, const uint32_t *resolved, const uint32_t *declared) {
    return holds(surface2, SURFACE, SURFACE, rows) && holds(core2, CORE, CORE, resolved) &&
           holds(declarations2, DECLARATIONS, DECLARATIONS, declared);
}

static void accepts(const char *what, const char *source, uint64_t rows, uint64_t declared) {
    check(what, load(source, whole) == 0 && answers(2, rows, declared));
}

/* A refusal, at an offset or, with -1, nowhere; it leaves 0 in all that was lent. */
static void refuses(const char *what, const char *source, lengths lent, uint8_t number, int offset) {
    int told = load(source, lent) == number;
    told = told && (offset < 0 ? answers(0, 0, 0) : answers(1, (uint64_t)offset, 0));
    check(what, told);
    check(what, hold(lent, nothing, nothing, nothing));
}

/* The head and spaces, so many bytes in all. */
static const char *padded(size_t length) {
    memset(text, ' ', length);
    memcpy(text, HEAD, strlen(HEAD));
    text[length] = 0;
    return text;
}

/* So many open forms around a star. */
static const char *nested(int forms) {
    strcpy(text, HEAD "(opaque a nat ");
    for (int i = 0; i < forms; i++) strcat(text, "(fst ");
    strcat(text, "star");
    for (int i = 0; i < forms; i++) strcat(text, ")");
    strcat(text, ")");
    return text;
}

/* 12 or another refusal to say what binds a row, which leaves 0. */
static void refuses_to_bind(const char *what, const char *source, size_t row, lengths lent, uint8_t number, int offset) {
    int told = binder(source, row, lent) == number;
    told = told && (offset < 0 ? answers(0, 0, 0) : answers(1, (uint64_t)offset, 0));
    check(what, told && hold(lent, nothing, nothing, nothing));
}

/* Three declarations, of which the last names the second, and that the first where ONE stands. */
#define CHAIN(one) HEAD "(postulate a nat)" one "(postulate c (ref b))"
/* One declaration behind two, of which the second names the first. */
#define PAIR(one) HEAD "(postulate a nat)(postulate b (ref a))" one

static void first_row(const char *what, const char *source, size_t i, size_t j, uint64_t row) {
    check(what, depends(source, i, j, whole) == 0 && answers(1, row, 0));
}

static void depended(void) {
    check("y depends on x, by row 1", depends(input, 1, 0, whole) == 0 && answers(1, 1, 0));
    check("a yes leaves what loading leaves", hold(whole, surface_rows, core_rows, records));
    check("x does not depend on y", depends(input, 0, 1, whole) == 0 && answers(0, 0, 0));
    check("a no leaves what loading leaves", hold(whole, surface_rows, core_rows, records));
    check("nor does y on itself", depends(input, 1, 1, whole) == 0 && answers(0, 0, 0));
    check("no third declaration: 12", depends(input, 2, 0, whole) == SULYTEROM_NO_DECLARATION && answers(0, 0, 0));
    check("12 leaves 0", hold(whole, nothing, nothing, nothing));
    check("nor as the second place: 12", depends(input, 0, 2, whole) == SULYTEROM_NO_DECLARATION);
    check("nor at the last number: 12", depends(input, SIZE_MAX, SIZE_MAX, whole) == SULYTEROM_NO_DECLARATION);
    check("loading comes first: 1 at 1", depends("(", 2, 2, whole) == SULYTEROM_MALFORMED && answers(1, 1, 0));
    check("a refused load leaves 0", hold(whole, nothing, nothing, nothing));

    check("through a postulate's type", depends(CHAIN("(postulate b (ref a))"), 2, 0, whole) == 0 && answers(1, 2, 0));
    check("the work area is 0", holds(work, WORK, WORK, nothing));
    check("through a transparent body", depends(CHAIN("(transparent b nat (ref a))"), 2, 0, whole) == 0 && answers(1, 3, 0));
    check("through an opaque one's type", depends(CHAIN("(opaque b (ref a) nat)"), 2, 0, whole) == 0 && answers(1, 3, 0));
    check("not through an opaque body", depends(CHAIN("(opaque b nat (ref a))"), 2, 0, whole) == 0 && answers(0, 0, 0));
    check("the work area is 0 after a no", holds(work, WORK, WORK, nothing));
    check("by its own opaque body", depends(CHAIN("(opaque b nat (ref a))"), 1, 0, whole) == 0 && answers(1, 2, 0));

    first_row("the first of two rows", HEAD "(postulate a nat)(postulate b (app (ref a) (ref a)))", 1, 0, 1);
    first_row("the type before the body", HEAD "(postulate a nat)(opaque b (ref a) (ref a))", 1, 0, 1);
    first_row("row 2, though row 3 names a itself", PAIR("(opaque c (ref b) (ref a))"), 2, 0, 2);
    first_row("row 2, which names a itself", PAIR("(opaque c (ref a) (ref b))"), 2, 0, 2);
    first_row("row 3, since row 2 does not lead to b", PAIR("(opaque c (ref a) (ref b))"), 2, 1, 3);
}

static void binds(void) {
    check("the domain's x is the declaration", binder(input, 1, whole) == 0 && answers(1, 0, 0));
    check("a declaration leaves what loading leaves", hold(whole, surface_rows, core_rows, records));
    check("the codomain's x is bound by row 3", binder(input, 2, whole) == 0 && answers(2, 0, 3));
    check("a binder leaves what loading leaves", hold(whole, surface_rows, core_rows, records));
    check("past another binder", binder(HEAD "(postulate a (lam x (pi y nat (ref x))))", 1, whole) == 0 && answers(2, 1, 3));
    check("the inner of two", binder(HEAD "(postulate a (lam x (lam x (ref x))))", 0, whole) == 0 && answers(2, 0, 1));
    check("_ binds", binder(HEAD "(postulate a (lam _ (ref _)))", 0, whole) == 0 && answers(2, 0, 1));
    refuses_to_bind("nat is no reference: 12", input, 0, whole, SULYTEROM_NO_DECLARATION, -1);
    refuses_to_bind("nor is pi: 12", input, 3, whole, SULYTEROM_NO_DECLARATION, -1);
    refuses_to_bind("a spare row: 12", input, 4, whole, SULYTEROM_NO_DECLARATION, -1);
    refuses_to_bind("no row of the table: 12", input, 5, whole, SULYTEROM_NO_DECLARATION, -1);
    refuses_to_bind("the last number: 12", input, SIZE_MAX, whole, SULYTEROM_NO_DECLARATION, -1);
    refuses_to_bind("eight times it is row 2's first word: 12", input, SIZE_MAX / 8 + 3, whole, SULYTEROM_NO_DECLARATION, -1);
    refuses_to_bind("the head has no row: 12", HEAD, 0, whole, SULYTEROM_NO_DECLARATION, -1);
    refuses_to_bind("loading first: 1 at 1", "(", SIZE_MAX, whole, SULYTEROM_MALFORMED, 1);
    refuses_to_bind("loading first: 5", HEAD "(postulate a (ref q))", 0, whole, SULYTEROM_UNKNOWN_NAME, -1);
    lengths lent = whole;
    lent.core = 31;
    refuses_to_bind("31 words of core rows: 10", input, 2, lent, SULYTEROM_CORE_SHORT, -1);
    lent.surface = 31;
    refuses_to_bind("31 words of surface rows: 8", input, 9, lent, SULYTEROM_SURFACE_FULL, -1);
}

/* Edition 0 2: an arrow's surface row, its core row, and what it counts for. */
static const char arrow[] = HEAD_0_2 "(postulate a (lam x (arrow (ref x) (ref x))))";
static const uint32_t arrow_surface[SURFACE] = {
    24,              55, 1, 0, 0, 0, 0, 50, /* (ref x), in the domain */
    24,              63, 1, 0, 0, 0, 0, 58, /* (ref x), in the codomain */
    SULYTEROM_ARROW, 0,  1, 0, 0, 0, 0, 43, /* (arrow ..) */
    5,               41, 1, 2, 0, 0, 0, 36, /* (lam x ..) */
};
static const uint32_t arrow_core[CORE] = {
    1, 0, 0, 0, 0, 0, 0, 50, /* var 0 */
    1, 1, 0, 0, 0, 0, 0, 58, /* var 1 */
    4, 0, 1, 0, 0, 0, 0, 43, /* pi */
    5, 2, 0, 0, 0, 0, 0, 36, /* lam */
};
static const uint32_t arrow_record[DECLARATIONS] = {1, 34, 1, 3, 0};

static void arrows(void) {
    accepts("an arrow: 4 rows", arrow, 4, 1);
    check("an arrow: every word", hold(whole, arrow_surface, arrow_core, arrow_record));
    check("it is no binder, and counts", binder(arrow, 1, whole) == 0 && answers(2, 1, 3));
    check("not in its domain", binder(arrow, 0, whole) == 0 && answers(2, 0, 3));
    check("its pi spelling is the same", same(arrow, HEAD "(postulate a (lam y (pi z (ref y) (ref y))))") == 0 && answers(0, 0, 0));
    check("a pi that binds the reference is not", same(arrow, HEAD "(postulate a (lam x (pi x (ref x) (ref x))))") == 0 && answers(1, 0, 0));
    check("it is printed as a pi", print(arrow, whole, 200) == 0 && answers(1, 108, 0) &&
                                       text_holds(TEXT_HEAD " (postulate \"a\" (lam (pi (var 0) (var 1))))))\n", 200));
    refuses("the version 0 3: 2", "(surface 0 3) ]", whole, SULYTEROM_VERSION, -1);
    refuses("half a head of 0 2: 1 at 13", "(surface 0 2)", whole, SULYTEROM_MALFORMED, 13);
    refuses("arrow as a name in 0 2: 3 at 34", HEAD_0_2 "(postulate arrow nat)", whole, SULYTEROM_RESERVED_NAME, 34);
    refuses("arrow as a tag in 0 1: 1 at 37", HEAD "(postulate a (arrow nat nat))", whole, SULYTEROM_MALFORMED, 37);
    accepts("arrow as a name in 0 1", HEAD "(postulate arrow nat)", 1, 1);
}

/* So many forms, each the last argument of the one before, and what stands in the last one. */
static const char *forms(int count, const char *form, const char *behind) {
    char *end = text + sprintf(text, HEAD "(postulate a ");
    for (int i = 0; i < count; i++) end += sprintf(end, "%s", form);
    strcpy(end, behind);
    return text;
}

/* Where 7 is met among other refusals, which is the same moment for both readers. */
static void depths(void) {
    static const char fst[] = "(fst ", sixth[] = "(j nat nat nat nat nat ";
    lengths lent = whole;
    refuses("513 frames, and a byte behind the last word: 7", forms(512, fst, "(fst ]"), lent, SULYTEROM_FRAMES, -1);
    refuses("a byte in the last word: 1", forms(512, fst, "(fst]"), lent, SULYTEROM_MALFORMED, 2600);
    refuses("a last word that is none: 1", forms(512, fst, "(first "), lent, SULYTEROM_MALFORMED, 2597);
    refuses("a byte behind the last binder: 7", forms(512, fst, "(pi x ]"), lent, SULYTEROM_FRAMES, -1);
    refuses("a reserved last binder: 3", forms(512, fst, "(lam nat ]"), lent, SULYTEROM_RESERVED_NAME, 2601);
    refuses("ref is no frame: 3", forms(512, fst, "(ref nat"), lent, SULYTEROM_RESERVED_NAME, 2601);
    refuses("the terms of the second have no row: 8", forms(513, sixth, ""), lent, SULYTEROM_SURFACE_FULL, -1);
    lent.surface = 8;
    refuses("a form that ends without a row: 8", forms(512, fst, "star)]"), lent, SULYTEROM_SURFACE_FULL, -1);
    refuses("no form ends: 1", forms(512, fst, "star]"), lent, SULYTEROM_MALFORMED, 2600);
    lent.declarations = 4;
    refuses("no record, before any form: 9", forms(513, fst, ""), lent, SULYTEROM_DECLARATIONS_FULL, -1);
    lent.work = WORK - 1;
    refuses("11 before 9", forms(513, fst, ""), lent, SULYTEROM_WORK_SHORT, -1);
}

static uint8_t head(const char *source, size_t length) {
    fill();
    return sulyterom_head((const uint8_t *)source, length, answer, 3);
}

static void names_modules(void) {
    static char longer[SULYTEROM_LONGEST_SOURCE + 2];
    check("01's input is named", head(input, strlen(input)) == 0 && answers(2, 21, 1));
    check("rubbish behind the head", head(HEAD "]\xff", 25) == 0 && answers(2, 21, 1));
    check("a cut name is not taken", head(HEAD, 22) == SULYTEROM_MALFORMED && answers(1, 22, 0));
    check("another version: 2", head("(surface 1 0) ]", 15) == SULYTEROM_VERSION && answers(0, 0, 0));
    check("a reserved name: 3", head("(surface 0 1)(module nat)", 25) == SULYTEROM_RESERVED_NAME && answers(1, 21, 0));
    check("not UTF-8 behind a bad head: 1", head("(surface 1 0)\xff", 14) == SULYTEROM_MALFORMED && answers(1, 13, 0));
    memset(longer, ' ', sizeof longer);
    check("a long source without a head: 6", head(longer, sizeof longer) == SULYTEROM_LONG_SOURCE && answers(0, 0, 0));
    check("as long as may be: 1 at its end",
          head(longer, SULYTEROM_LONGEST_SOURCE) == SULYTEROM_MALFORMED && answers(1, SULYTEROM_LONGEST_SOURCE, 0));
    memcpy(longer, HEAD, 23);
    check("a long source with a head", head(longer, sizeof longer) == 0 && answers(2, 21, 1));
    fill();
    answer[0] = 7;
    check("no room for the answer", sulyterom_head((const uint8_t *)HEAD, 23, answer, 2) == 0 && answer[0] == 7);
}

/* The call leaves four numbers. */
static uint64_t figures[SULYTEROM_LONG_ANSWER_WORDS];

static uint8_t storage(const char *source, size_t length, size_t words) {
    fill();
    memset(figures, 0xa5, sizeof figures);
    return sulyterom_storage((const uint8_t *)source, length, work, words, figures, SULYTEROM_LONG_ANSWER_WORDS);
}

static void needs(const char *what, const char *source, uint64_t rows, uint64_t declared, uint64_t frames) {
    int told = storage(source, strlen(source), WORK) == 0 && figures[0] == 3 && figures[1] == rows &&
               figures[2] == declared && figures[3] == frames;
    check(what, told && holds(work, WORK, WORK, nothing));
}

/* A refusal, at an offset or, with -1, nowhere; it leaves 0 in the work area. */
static void needs_nothing(const char *what, const char *source, size_t length, size_t words, uint8_t number, int offset) {
    int told = storage(source, length, words) == number && figures[0] == (offset >= 0) && figures[2] == 0 && figures[3] == 0;
    told = told && figures[1] == (offset < 0 ? 0 : (uint64_t)offset);
    check(what, told && holds(work, WORK, words, nothing));
}

static void tells_storage(void) {
    static const char two[] = HEAD "(opaque a nat (fst (fst star)))(postulate b (fst (ref q)))";
    needs("01's input needs 4 rows, 2 declarations and a frame", input, 4, 2, 1);
    check("no row and no declaration is touched", holds(surface, SURFACE, 0, nothing) && holds(core, CORE, 0, nothing) &&
                                                      holds(declarations, DECLARATIONS, 0, nothing));
    needs("the head needs nothing", HEAD, 0, 0, 0);
    needs("a leaf is no frame", HEAD "(postulate a nat)", 1, 1, 0);
    needs("nor is a reference, of a name that is not known", HEAD "(postulate a (ref q))", 1, 1, 0);
    needs("nor a universe; names are not compared", HEAD "(postulate a nat)(postulate a (universe 0))", 2, 2, 0);
    needs("the most frames of all types and bodies", two, 6, 2, 2);
    needs("512 frames", nested(SULYTEROM_MOST_FRAMES), 514, 1, SULYTEROM_MOST_FRAMES);
    needs("65,535 bytes", padded(SULYTEROM_LONGEST_SOURCE), 0, 0, 0);
    needs_nothing("an open parenthesis: 1 at 1", "(", 1, WORK, SULYTEROM_MALFORMED, 1);
    needs_nothing("not UTF-8: 1 at 14", "(surface 1 0) \xff", 15, WORK, SULYTEROM_MALFORMED, 14);
    needs_nothing("a mark: 1 at 0", "\xef\xbb\xbf" HEAD, 26, WORK, SULYTEROM_MALFORMED, 0);
    needs_nothing("the version 1 0: 2", "(surface 1 0) ]", 15, WORK, SULYTEROM_VERSION, -1);
    needs_nothing("a reserved name: 3 at 34", HEAD "(postulate nat-elim nat)", 47, WORK, SULYTEROM_RESERVED_NAME, 34);
    needs_nothing("65,536 bytes: 6", padded(LONG), LONG, WORK, SULYTEROM_LONG_SOURCE, -1);
    nested(SULYTEROM_MOST_FRAMES + 1);
    needs_nothing("513 frames: 7", text, strlen(text), WORK, SULYTEROM_FRAMES, -1);
    needs_nothing("a short work area: 11", input, strlen(input), WORK - 1, SULYTEROM_WORK_SHORT, -1);
    needs_nothing("no work area: 11", "(", 1, 0, SULYTEROM_WORK_SHORT, -1);
    needs_nothing("11 before 6", padded(LONG), LONG, WORK - 1, SULYTEROM_WORK_SHORT, -1);

    /* with just that, and with one less */
    lengths lent = {4 * SULYTEROM_ROW_WORDS, 4 * SULYTEROM_ROW_WORDS, 2 * SULYTEROM_RECORD_WORDS, WORK};
    check("just the storage", load(input, lent) == 0 && answers(2, 4, 2) && hold(lent, surface_rows, core_rows, records));
    lent.surface = 3 * SULYTEROM_ROW_WORDS;
    refuses("a surface row less: 8", input, lent, SULYTEROM_SURFACE_FULL, -1);
    lent.declarations = 1 * SULYTEROM_RECORD_WORDS;
    refuses("and a record less: 9", input, lent, SULYTEROM_DECLARATIONS_FULL, -1);
    lent.surface = 4 * SULYTEROM_ROW_WORDS;
    refuses("a record less: 9", input, lent, SULYTEROM_DECLARATIONS_FULL, -1);
    lent.declarations = 2 * SULYTEROM_RECORD_WORDS;
    lent.core = 3 * SULYTEROM_ROW_WORDS;
    refuses("a core row less: 10", input, lent, SULYTEROM_CORE_SHORT, -1);

    fill();
    memset(figures, 0xa5, sizeof figures);
    check("no room for the figures", sulyterom_storage((const uint8_t *)input, strlen(input), work, WORK, figures, 3) == 0 &&
                                         figures[0] == 0xa5a5a5a5a5a5a5a5u && holds(work, WORK, WORK, nothing));
}

static void prints_and_reads(void) {
    size_t length = strlen(core_text);
    check("01's input printed", print(input, whole, sizeof buffer) == 0 && answers(1, length, 0));
    check("01's input printed: every byte", text_holds(core_text, sizeof buffer));
    check("01's input printed: what loading leaves", hold(whole, surface_rows, core_rows, records));
    check("just the room", print(input, whole, length) == 0 && answers(1, length, 0) && text_holds(core_text, length));
    check("the head printed", print(HEAD, whole, 65) == 0 && answers(1, 65, 0) && text_holds(TEXT_HEAD "))\n", 65));
    refuses_to_print("a byte too little: 14", input, whole, length - 1, SULYTEROM_TEXT_SHORT, -1);
    refuses_to_print("no room: 14", HEAD, whole, 0, SULYTEROM_TEXT_SHORT, -1);
    refuses_to_print("loading first: 1 at 1", "(", whole, 0, SULYTEROM_MALFORMED, 1);
    refuses_to_print("loading first: 5", HEAD "(postulate a (ref q))", whole, 0, SULYTEROM_UNKNOWN_NAME, -1);
    lengths lent = whole;
    lent.core = 31;
    refuses_to_print("31 words of core rows: 10", input, lent, 0, SULYTEROM_CORE_SHORT, -1);

    check("its text read", read_text(sulyterom_read_core, core_text, whole) == 0 && answers(2, 4, 2));
    check("its text read: every word", read_hold(whole, text_rows, text_records));
    check("its text read as its own print", read_text(sulyterom_read_canonical, core_text, whole) == 0 && answers(2, 4, 2));
    check("its text read as its own print: every word", read_hold(whole, text_rows, text_records));
    check("another layout", read_text(sulyterom_read_core, TEXT_HEAD "))", whole) == 0 && answers(2, 0, 0));
    check("another layout: 13", read_text(sulyterom_read_canonical, TEXT_HEAD "))", whole) == SULYTEROM_CORE_TEXT &&
                                    answers(0, 0, 0) && read_hold(whole, nothing, nothing));
    refuses_to_read("nothing: 13 at 0", "", whole, SULYTEROM_CORE_TEXT, 0);
    refuses_to_read("not UTF-8: 13 at 65", TEXT_HEAD "))\n\xc3", whole, SULYTEROM_CORE_TEXT, 65);
    refuses_to_read("a mark: 13 at 0", "\xef\xbb\xbf" TEXT_HEAD "))\n", whole, SULYTEROM_CORE_TEXT, 0);
    refuses_to_read("a comment: 13 at 65", TEXT_HEAD "))\n; end", whole, SULYTEROM_CORE_TEXT, 65);
    refuses_to_read("a name twice: 13 at 0", TEXT_HEAD "(postulate \"a\" nat)(postulate \"a\" nat)))", whole,
                    SULYTEROM_CORE_TEXT, 0);
    refuses_to_read("format 0 2: 2", "(hott-core (format 0 2) (theory \"mltt-core\" 0 1) ]", whole, SULYTEROM_VERSION, -1);
    refuses_to_read("31 words of core rows: 10", core_text, lent, SULYTEROM_CORE_SHORT, -1);
    lent = whole;
    lent.declarations = 9;
    refuses_to_read("9 words of declarations: 9", core_text, lent, SULYTEROM_DECLARATIONS_FULL, -1);
    lent = whole;
    lent.work = WORK - 1;
    refuses_to_read("a short work area: 11", "", lent, SULYTEROM_WORK_SHORT, -1);
    strcpy(text, TEXT_HEAD "(postulate \"a\" ");
    for (int i = 0; i <= SULYTEROM_MOST_FRAMES; i++) strcat(text, "(fst ");
    refuses_to_read("513 frames: 7", text, whole, SULYTEROM_FRAMES, -1);
}

int main(void) {
    check("kinds of rows", COUNT_FROM_ONE(kinds));
    check("classes", COUNT_FROM_ONE(classes) && SULYTEROM_ACCEPTED == 0);
    check("kinds of declarations", COUNT_FROM_ONE(declaration_kinds));
    check("sizes", SULYTEROM_ROW_WORDS == 8 && SULYTEROM_RECORD_WORDS == 5 && SULYTEROM_WORK_WORDS == WORK);

    accepts("01's input: 4 rows and 2 declarations", input, 4, 2);
    check("01's input: every word", hold(whole, surface_rows, core_rows, records));
    accepts("the head alone", HEAD, 0, 0);
    check("the head alone: all 0", hold(whole, nothing, nothing, nothing));
    accepts("65,535 bytes", padded(SULYTEROM_LONGEST_SOURCE), 0, 0);

    refuses("an open parenthesis: 1 at 1", "(", whole, SULYTEROM_MALFORMED, 1);
    refuses("a byte that is not UTF-8: 1 at 1", ";\xc3\n", whole, SULYTEROM_MALFORMED, 1);
    refuses("the version 1 0: 2", "(surface 1 0) ]", whole, SULYTEROM_VERSION, -1);
    refuses("a reserved name: 3 at 34", HEAD "(postulate nat-elim nat)", whole, SULYTEROM_RESERVED_NAME, 34);
    refuses("a name used before: 4", HEAD "(postulate a nat)(postulate a (ref q))", whole, SULYTEROM_DUPLICATE_NAME,
            -1);
    refuses("an unknown name: 5", HEAD "(postulate a (ref q))(postulate a nat)", whole, SULYTEROM_UNKNOWN_NAME, -1);
    refuses("65,536 bytes: 6", padded(LONG), whole, SULYTEROM_LONG_SOURCE, -1);
    refuses("512 frames, and 5 rows for all they hold: 8", nested(SULYTEROM_MOST_FRAMES), whole,
            SULYTEROM_SURFACE_FULL, -1);
    refuses("513 frames: 7", nested(SULYTEROM_MOST_FRAMES + 1), whole, SULYTEROM_FRAMES, -1);

    lengths lent = whole;
    lent.surface = 31;
    refuses("31 words of surface rows: 8", input, lent, SULYTEROM_SURFACE_FULL, -1);
    lent = whole;
    lent.declarations = 9;
    refuses("9 words of declarations: 9", input, lent, SULYTEROM_DECLARATIONS_FULL, -1);
    lent = whole;
    lent.core = 31;
    refuses("31 words of core rows: 10", input, lent, SULYTEROM_CORE_SHORT, -1);
    lent = whole;
    lent.work = WORK - 1;
    refuses("a short work area: 11", input, lent, SULYTEROM_WORK_SHORT, -1);
    lent.work = 0;
    refuses("no work area: 11", "(", lent, SULYTEROM_WORK_SHORT, -1);

    arrows();
    depths();
    depended();
    binds();

    check("the same as itself", same(input, input) == 0 && answers(0, 0, 0));
    check("a yes leaves what loading leaves", hold(whole, surface_rows, core_rows, records));
    check("a yes leaves it for both", second_hold(surface_rows, core_rows, records));
    check("a binder renamed", same(input, HEAD "(postulate x nat)(postulate y (pi z (ref x) (ref z)))") == 0 &&
                                  answers(0, 0, 0));
    check("another binder: at 1", same(input, HEAD "(postulate x nat)(postulate y (pi z (ref x) (ref x)))") == 0 &&
                                      answers(1, 1, 0));
    check("a no leaves what loading leaves", hold(whole, surface_rows, core_rows, records));
    check("a beginning: at its end", same(HEAD "(postulate x nat)", input) == 0 && answers(1, 1, 0));
    check("the second refused: 5", same(input, HEAD "(postulate a (ref q))") == SULYTEROM_UNKNOWN_NAME &&
                                       answers(1, 2, 0));
    check("a refusal leaves 0", hold(whole, nothing, nothing, nothing));
    check("a refusal leaves 0 for both", second_hold(nothing, nothing, nothing));
    check("the first refused: 1 at 1", same("(", "((") == SULYTEROM_MALFORMED && answers(2, 1, 1));
    check("its refusal leaves 0 for both",
          hold(whole, nothing, nothing, nothing) && second_hold(nothing, nothing, nothing));

    names_modules();
    tells_storage();
    prints_and_reads();

    check("room for two numbers: accepted", load_into(input, whole, 2) == 0);
    check("room for two numbers: the answer is left as it is", answer[0] == 0xa5a5a5a5a5a5a5a5u);
    check("room for two numbers: a binder",
          sulyterom_binder((const uint8_t *)input, strlen(input), 2, surface, SURFACE, core, CORE, declarations,
                           DECLARATIONS, work, WORK, answer, 2) == 0);
    check("room for two numbers: printed",
          sulyterom_print((const uint8_t *)input, strlen(input), surface, SURFACE, core, CORE, declarations,
                          DECLARATIONS, work, WORK, buffer, sizeof buffer, answer, 2) == 0);
    check("room for two numbers: read", sulyterom_read_core((const uint8_t *)core_text, strlen(core_text), core, CORE,
                                                            declarations, DECLARATIONS, work, WORK, answer, 0) == 0);
    check("room for two numbers: the answer is left again", answer[0] == 0xa5a5a5a5a5a5a5a5u);

    printf("%d passed, %d failed\n", passed, failed);
    return failed != 0;
}
