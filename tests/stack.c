/* How much stack a call takes: each runs in a thread whose stack was painted, and what is no longer the paint was used. The
   plain reader has a limit of its own, and is given forms as deep in each other as may be. The last line is 'N passed, M
   failed'. */
#define _GNU_SOURCE
#include "sulyterom.h"

#include <pthread.h>
#include <stdio.h>
#include <stdlib.h>
#include <string.h>

enum { STACK = 4 << 20, PAINT = 0x5a, ROWS = SULYTEROM_ROWS_FOR(SULYTEROM_LONGEST_SOURCE) };
enum { RECORDS = SULYTEROM_DECLARATIONS_FOR(SULYTEROM_LONGEST_SOURCE) };

static sulyterom_row surface[2][ROWS], core[2][ROWS];
static sulyterom_declaration declarations[2][RECORDS];
static uint32_t work[SULYTEROM_WORK_WORDS];
static const sulyterom_tables tables[2] = {
    {surface[0], ROWS, core[0], ROWS, declarations[0], RECORDS, work, SULYTEROM_WORK_WORDS},
    {surface[1], ROWS, core[1], ROWS, declarations[1], RECORDS, work, SULYTEROM_WORK_WORDS},
};
static char source[SULYTEROM_LONGEST_SOURCE + 1];
static uint8_t text[SULYTEROM_TEXT_FOR(SULYTEROM_LONGEST_SOURCE)];
static size_t text_length;
static size_t length;
static int passed, failed;

static void *nothing(void *unused) {
    return unused;
}

static void *load(void *unused) {
    sulyterom_load_into((const uint8_t *)source, length, &tables[0]);
    return unused;
}

static void *load_plain(void *unused) {
    sulyterom_load_plain_into((const uint8_t *)source, length, &tables[0]);
    return unused;
}

static void *parse_plain(void *unused) {
    uint64_t answer[SULYTEROM_ANSWER_WORDS];
    sulyterom_parse_plain((const uint8_t *)source, length, &surface[0][0].kind, ROWS * SULYTEROM_ROW_WORDS,
                          &declarations[0][0].kind, RECORDS * SULYTEROM_RECORD_WORDS, work, SULYTEROM_WORK_WORDS, answer,
                          SULYTEROM_ANSWER_WORDS);
    return unused;
}

/* As much of the text as there is room for. */
static void *list(void *unused) {
    sulyterom_list_into((const uint8_t *)source, length, &tables[0], text, sizeof text);
    return unused;
}

static void *list_plain(void *unused) {
    sulyterom_list_plain_into((const uint8_t *)source, length, &tables[0], text, sizeof text);
    return unused;
}

/* The last row that is a reference, if there is one, and the last declaration. */
static size_t asked, last;

static void choose(void) {
    sulyterom_loaded loaded = sulyterom_load_into((const uint8_t *)source, length, &tables[0]);
    asked = 0;
    for (size_t row = 0; row < loaded.rows; row++) {
        if (surface[0][row].kind == SULYTEROM_REF) asked = row;
    }
    last = loaded.declarations > 0 ? loaded.declarations - 1 : 0;
}

/* Of all that stand between the two. */
static void *depends(void *unused) {
    sulyterom_depends_in((const uint8_t *)source, length, last, 0, &tables[0]);
    return unused;
}

static void *binder(void *unused) {
    sulyterom_binder_in((const uint8_t *)source, length, asked, &tables[0]);
    return unused;
}

static void *same(void *unused) {
    sulyterom_same_in((const uint8_t *)source, length, (const uint8_t *)source, length, &tables[0], &tables[1]);
    return unused;
}

static void *head(void *unused) {
    sulyterom_head_of((const uint8_t *)source, length);
    return unused;
}

static void *storage(void *unused) {
    sulyterom_storage_of((const uint8_t *)source, length, work, SULYTEROM_WORK_WORDS);
    return unused;
}

static void *print(void *unused) {
    text_length = sulyterom_print_into((const uint8_t *)source, length, &tables[0], text, sizeof text).length;
    return unused;
}

/* Of what was printed last. */
static void *read_core(void *unused) {
    sulyterom_read_core_into(text, text_length, &tables[0]);
    return unused;
}

static void *read_canonical(void *unused) {
    sulyterom_read_canonical_into(text, text_length, &tables[0]);
    return unused;
}

/* Bytes of stack that a thread uses, its own start included. */
static size_t used(void *(*call)(void *)) {
    pthread_attr_t attributes;
    pthread_t thread;
    unsigned char *stack = (unsigned char *)aligned_alloc(4096, STACK);
    size_t untouched = 0;
    memset(stack, PAINT, STACK);
    if (pthread_attr_init(&attributes) || pthread_attr_setstack(&attributes, stack, STACK) ||
        pthread_create(&thread, &attributes, call, NULL) || pthread_join(thread, NULL))
        exit(2);
    while (untouched < STACK && stack[untouched] == PAINT) untouched++;
    free(stack);
    return STACK - untouched;
}

static void stays_below(size_t limit, const char *what, void *(*call)(void *)) {
    size_t start = used(nothing), all = used(call), taken = all > start ? all - start : 0;
    if (taken < limit) {
        passed++;
    } else {
        failed++;
        printf("stack: %s takes %zu bytes\n", what, taken);
    }
    if (getenv("SHOW")) printf("%s: %zu bytes of stack\n", what, taken);
}

static void check(const char *what, void *(*call)(void *)) {
    stays_below(SULYTEROM_STACK_BYTES, what, call);
}

static void all(const char *what) {
    printf("%s, %zu bytes\n", what, length);
    choose();
    stays_below(SULYTEROM_PLAIN_STACK_BYTES, "loading by the plain reader", load_plain);
    stays_below(SULYTEROM_PLAIN_STACK_BYTES, "reading alone by the plain reader", parse_plain);
    stays_below(SULYTEROM_PLAIN_STACK_BYTES, "a listing by the plain reader", list_plain);
    check("a listing", list);
    check("loading", load);
    check("a dependence", depends);
    check("a binder", binder);
    check("a comparison", same);
    check("the module's name", head);
    check("the least storage", storage);
    check("printing", print);
    check("reading a core text", read_core);
    check("reading a core text that is its own print", read_canonical);
}

/* So many forms, each the last argument of the one before. */
static void nested(const char *what, int forms, const char *form, const char *last) {
    length = (size_t)sprintf(source, "(surface 0 2)(module m)(postulate b nat)(postulate a ");
    for (int k = 0; k < forms; k++) length += (size_t)sprintf(source + length, "%s", form);
    length += (size_t)sprintf(source + length, "%s", last);
    for (int k = 0; k < forms; k++) source[length++] = ')';
    source[length++] = ')';
    all(what);
}

int main(void) {
    length = (size_t)sprintf(source, "(surface 0 1)(module m)(postulate a nat)(postulate b (ref a))");
    all("a short source");
    length = (size_t)sprintf(source, "(surface 0 1)(module m)");
    for (int k = 0; length + 40 < sizeof source; k++)
        length += (size_t)sprintf(source + length, k ? "(postulate a%d (ref a%d))" : "(postulate a%d nat)", k, k - 1);
    all("each declaration refers to the one before");
    length = (size_t)sprintf(source, "(surface 0 1)(module m)(postulate b nat)(postulate a ");
    for (int k = 0; k < 512; k++) length += (size_t)sprintf(source + length, "(pi x%d nat ", k);
    length += (size_t)sprintf(source + length, "(ref x0)");
    for (int k = 0; k < 512; k++) source[length++] = ')';
    source[length++] = ')';
    all("512 binders");
    source[length++] = ']';
    all("a refusal at the end");
    nested("512 forms of one term", 512, "(fst ", "nat");
    nested("512 arrows", 512, "(arrow nat ", "(ref b)");
    nested("512 forms, each the sixth term of the one before", 512, "(j nat nat nat nat nat ", "(universe 0)");
    nested("one form more, which is refused", 513, "(j nat nat nat nat nat ", "nat");
    printf("%d passed, %d failed\n", passed, failed);
    return failed != 0;
}
