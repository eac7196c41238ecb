/* How far behind a good head the question for the module's name reads: the head stands so that REACH bytes behind it a page
   begins that cannot be read, and the source goes on there. The last line is 'N passed, M failed'. */
#define _GNU_SOURCE
#include "sulyterom.h"

#include <stdio.h>
#include <stdlib.h>
#include <string.h>
#include <sys/mman.h>

/* Comments are passed over in blocks of 16 bytes, spaces in blocks of 8. */
enum { PAGE = 4096, REACH = 15 };

static int passed, failed;

static void check(const char *head, size_t start, size_t name_length, size_t source_length) {
    unsigned char *pages = (unsigned char *)mmap(NULL, 2 * PAGE, PROT_READ | PROT_WRITE, MAP_PRIVATE | MAP_ANONYMOUS, -1, 0);
    if (pages == MAP_FAILED || mprotect(pages + PAGE, PAGE, PROT_NONE)) exit(2);
    size_t length = strlen(head);
    unsigned char *source = pages + PAGE - REACH - length;
    memcpy(source, head, length);
    memset(source + length, 0xff, REACH);
    sulyterom_module_name told = sulyterom_head_of(source, source_length);
    if (told.refused == SULYTEROM_ACCEPTED && told.start == start && told.length == name_length) {
        passed++;
    } else {
        failed++;
        printf("reach: %s: refused %d, %zu %zu\n", head, told.refused, told.start, told.length);
    }
    munmap(pages, 2 * PAGE);
}

static void at_all_lengths(const char *head, size_t start, size_t name_length) {
    static const size_t lengths[] = {100, 4096, SULYTEROM_LONGEST_SOURCE, SULYTEROM_HEAD_BYTES, (size_t)1 << 40};
    for (size_t k = 0; k < sizeof lengths / sizeof lengths[0]; k++) check(head, start, name_length, lengths[k]);
}

int main(void) {
    at_all_lengths("(surface 0 1)(module m)", 21, 1);
    at_all_lengths("(surface 0 1)(module m )", 21, 1);
    at_all_lengths("(surface 0 1)(module m        )", 21, 1);
    at_all_lengths("(surface 0 1)(module m;\n)", 21, 1);
    at_all_lengths("(surface 0 1)(module m; a comment of some 30 bytes\n)", 21, 1);
    at_all_lengths("(surface 0 1)(module shelf_of_17_bytes)", 21, 17);
    printf("%d passed, %d failed\n", passed, failed);
    return failed != 0;
}
