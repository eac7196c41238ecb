/* sulyterom.h: loads a hott-surface source, of edition 0 1 or 0 2, into a numbered core module that a kernel can check,
   tells which declarations depend on which, what binds a reference, how a module is named and how much storage a source
   needs, and writes and reads core text, by which stations exchange core modules.

   `./sulyterom build` makes target/staticlib/libsulyterom.a for x86-64 Linux. Link it:

       cc -Iinclude program.c target/staticlib/libsulyterom.a

   or, where it is installed, `cc program.c $(pkg-config --cflags --libs sulyterom)`. examples/load.c is a whole
   program, and examples/core.c one that writes core text. In short:

       static sulyterom_row surface[1024], core[1024];
       static sulyterom_declaration declarations[256];
       static uint32_t work[SULYTEROM_WORK_WORDS];
       sulyterom_tables tables = {surface, 1024, core, 1024, declarations, 256, work, SULYTEROM_WORK_WORDS};
       sulyterom_loaded loaded = sulyterom_load_into(source, source_length, &tables);
       if (loaded.refused == SULYTEROM_ACCEPTED) {
           // loaded.rows rows in each of surface and core, loaded.declarations declarations
       } else if (loaded.has_offset) {
           // refused at the byte loaded.offset of the source; sulyterom_class_text(loaded.refused) says why
       } else {
           // refused, at no place
       }

   The functions up to sulyterom_read_canonical are the library's own, and take each table as words. Behind them stand
   inline functions over structs, which do nothing but call these: rows and records are the same memory.

   What is passed. Every table, the source and a text are passed as a pointer to the first element and then the length
   in elements (words of 32 bits, or bytes of the source or text, or numbers of 64 bits), never in bytes of memory; in
   the structs with its count of rows, records or words. A pointer is not NULL and is aligned for its type, even where
   the length is 0. The tables, and a text that is written, do not overlap each other, what is read or the answer, and
   no other thread touches them, nor writes what is read, during the call. Nothing else is asked: a source or a text
   may be any bytes, a table may have any length and any former content.

   What is promised. A function returns, and the answer and every word of every table are what a definition says
   (crates/sulyterom/src has the promises, each proved). It allocates nothing, writes nothing but the tables
   lent to it, and keeps nothing between calls: tables can be lent again and again, and threads can load at the same
   time into tables of their own. A call takes less than SULYTEROM_STACK_BYTES of stack, whatever the source, and one by
   the plain reader less than SULYTEROM_PLAIN_STACK_BYTES. */
#ifndef SULYTEROM_H
#define SULYTEROM_H

#include <stddef.h>
#include <stdint.h>

/* The version of this header and of the library beside it. */
#define SULYTEROM_VERSION_MAJOR 0
#define SULYTEROM_VERSION_MINOR 10
#define SULYTEROM_VERSION_PATCH 0
#define SULYTEROM_VERSION_TEXT "0.10.0"

#ifdef __cplusplus
extern "C" {
#endif

/* How long the tables are.

   A row is 8 words and a declaration's record 5; words left over behind the last whole row or record are set to
   0. The two row tables need as many rows as the source has terms, the declaration list as many records as it has
   declarations. The work area needs 16,384 words whatever the source.

   sulyterom_storage tells how many rows and records one source needs: with exactly so many, loading answers and leaves
   what it does with any more. Without asking, so many rows and records as SULYTEROM_ROWS_FOR and
   SULYTEROM_DECLARATIONS_FOR give for the bytes of a source suffice, since a term has at least 3 bytes and a
   declaration at least 17: 8, 9 and 10 are then never given, and loading answers and leaves what it does with any more,
   also where the source is refused. This is proved, as FewerThanBytes, NeverFull and BytesAreEnough in
   crates/least_storage/specs/Statements.antt. For the longest source these are 21,845 rows and 3,855 records; most need
   much less. Spare words are set to 0 in every call, which takes time.

   The same figures suffice for a core text of so many bytes: 9 and 10 are then never given, as TextNeverFull in
   crates/core_module/specs/Statements.antt says. Its shortest terms are nat and, beside their arguments, forms like
   (j ..), and its shortest declaration is (postulate"a"nat).

   A text buffer of SULYTEROM_TEXT_FOR bytes never leads to a refusal 14, for a source of so many bytes. The head and
   the end of a text have 65 bytes, the head of a source at least 23, and nothing else is printed in more than twice the
   bytes that it has in the source, its arguments apart and with the space that is printed before it:
       nat                  3 bytes, printed in 4; unit, star, zero 4 in 5, empty 5 in 6
       (ref x)              at least 7, printed as (global P) in at most 14 or as (var C) in at most 10, since a place
                            has at most 4 digits (there are at most 3,855 declarations) and a count at most 3 (there
                            are at most 512 binders around it)
       (universe N)         as many and the space: at least 12 in 13
       (j ..)               3 bytes in 4; every other tag is longer, and has one byte more as well; pi, sigma and lam
                            have fewer, since the binder is not printed, and so has arrow, which is printed as pi
       (postulate x ..)     at least 13 bytes in 16, for the space and two quotes; (transparent x ..) 15 in 18 and
                            (opaque x ..) 10 in 13
   So a text has at most 65 + 2 * (bytes - 23) bytes; for the longest source these are 131,089. */
#define SULYTEROM_ROW_WORDS 8
#define SULYTEROM_ROW_OFFSET 7 /* the word of a row that says where its term starts */
#define SULYTEROM_RECORD_WORDS 5
#define SULYTEROM_WORK_WORDS 16384
#define SULYTEROM_ANSWER_WORDS 3
#define SULYTEROM_LONG_ANSWER_WORDS 4 /* of sulyterom_list, sulyterom_token and sulyterom_storage */
#define SULYTEROM_LONGEST_SOURCE 65535     /* bytes */
#define SULYTEROM_HEAD_BYTES 65536         /* of a file, with which sulyterom_head answers as with all of it */
#define SULYTEROM_LONGEST_TEXT 4294967295u /* bytes of a core text that is read */
#define SULYTEROM_MOST_FRAMES 512          /* forms open at the same time in one type or body */
#define SULYTEROM_STACK_BYTES 32768        /* that a call stays below */
#define SULYTEROM_PLAIN_STACK_BYTES 327680 /* that a call by the plain reader stays below, measured and not proved; it
                                              calls itself at most 513 deep: for 512 forms and a term in the last */
#define SULYTEROM_ROWS_FOR(bytes) ((bytes) / 3)
#define SULYTEROM_DECLARATIONS_FOR(bytes) ((bytes) / 17)
#define SULYTEROM_TEXT_FOR(bytes) ((bytes) * 2 + 19) /* bytes of the text that is printed for a source */

/* The number that a function returns: 0, or the class of the refusal. "At" says that a place comes with it: the
   offset in the source, or in the core text that is read, from 0. The others have no place. Where several apply to a
   source, the order is: 11, 6, not UTF-8 (1), a leading EF BB BF (1), then 1, 2, 3, 7, 8 and 9 as the source is read,
   10, then for each declaration in turn 4 and 5, and last 12 or 14. Where several apply to a core text that is read:
   11, 6, not UTF-8 (13), a leading EF BB BF (13), then 13, 2, 7, 9 and 10 as the text is read, a name used twice (13 at
   0), and last, by sulyterom_read_canonical alone, 13 without a place. */
typedef enum sulyterom_class {
    SULYTEROM_ACCEPTED = 0,
    /* From the source. */
    SULYTEROM_MALFORMED = 1,      /* at the byte, or the first byte of the token, that does not fit */
    SULYTEROM_VERSION = 2,        /* the version is neither 0 1 nor 0 2; that of a core text is not 0 1, or its theory
                                     not "mltt-core" */
    SULYTEROM_RESERVED_NAME = 3,  /* at a reserved word that stands where a name must; arrow is one in 0 2 only */
    SULYTEROM_DUPLICATE_NAME = 4, /* an earlier declaration has the same name */
    SULYTEROM_UNKNOWN_NAME = 5,   /* a reference to no binder and no earlier declaration */
    SULYTEROM_LONG_SOURCE = 6,    /* over SULYTEROM_LONGEST_SOURCE bytes, or a core text over SULYTEROM_LONGEST_TEXT */
    SULYTEROM_FRAMES = 7,         /* over SULYTEROM_MOST_FRAMES forms open in one type or body */
    /* From the tables. */
    SULYTEROM_SURFACE_FULL = 8,      /* fewer rows lent than the source has terms */
    SULYTEROM_DECLARATIONS_FULL = 9, /* fewer records lent than the source has declarations */
    SULYTEROM_CORE_SHORT = 10,       /* fewer core rows lent than the source has terms */
    SULYTEROM_WORK_SHORT = 11,       /* under SULYTEROM_WORK_WORDS words of work area */
    /* From the question. */
    SULYTEROM_NO_DECLARATION = 12, /* dependence asked of a place that is no declaration, or the binder of a row that is
                                      no reference */
    /* From a core text that is read. */
    SULYTEROM_CORE_TEXT = 13, /* at the byte, or the first byte of the token, that does not fit; at 0 for a name that is
                                 used twice; without a place for a text that is not its own print */
    /* From the buffer that is printed into. */
    SULYTEROM_TEXT_SHORT = 14 /* it is shorter than the text */
} sulyterom_class;

/* The kind of a row, its first word. Row k of a table begins at word k * SULYTEROM_ROW_WORDS. Rows are numbered
   from 0 in the order in which terms end, so a row's children have lower numbers than itself. Core row k stands for
   the same term as surface row k. The last word, SULYTEROM_ROW_OFFSET, of a row in either table is the offset of the
   term's first byte in the source: of its opening parenthesis, or of the word where it is empty, unit, star, nat or
   zero. Behind the kind stand, in this order, and then 0 up to it:

       kind                     surface row                         core row
       ref                      start and length of the name
       var                                                          count
       global                                                       place
       universe                 start and length of the numeral     the same
       pi, sigma                start and length of the binder's    domain, codomain
                                name, domain, codomain
       arrow                    domain, codomain                    that of a pi: kind 4, domain, codomain
       lam                      start and length of the binder's    body
                                name, body
       empty unit star nat zero nothing                             the same
       fst, snd                 pair                                the same
       refl                     term                                the same
       succ                     predecessor                         the same
       app                      function, argument                  the same
       pair                     first, second                       the same
       empty-elim               motive, scrutinee                   the same
       ann                      term, type                          the same
       id                       type, left, right                   the same
       unit-elim                motive, branch, scrutinee           the same
       nat-elim                 motive, zero case, step, scrutinee  the same
       j                        type, base, motive, branch,         the same
                                endpoint, path

   Start and length are bytes of the source. Every other field but count and place is the number of a row. Count
   says how many binders stand between a reference and the one that binds it: 0 is the innermost. An arrow, which
   sources of edition 0 2 have, counts in its codomain as one binder that no name reaches. Place is a declaration's.

   A core row that was read from a core text is the same, but refers to that text: its last word is the term's offset in
   the text, and var, global and universe have the start and the length of their numeral in the text, which may have any
   number of digits. Whether there is such a binder or declaration is not looked at. */
typedef enum sulyterom_kind {
    SULYTEROM_VAR = 1,    /* core only */
    SULYTEROM_GLOBAL = 2, /* core only */
    SULYTEROM_UNIVERSE = 3,
    SULYTEROM_PI = 4,
    SULYTEROM_LAM = 5,
    SULYTEROM_APP = 6,
    SULYTEROM_SIGMA = 7,
    SULYTEROM_PAIR = 8,
    SULYTEROM_FST = 9,
    SULYTEROM_SND = 10,
    SULYTEROM_ID = 11,
    SULYTEROM_REFL = 12,
    SULYTEROM_J = 13,
    SULYTEROM_EMPTY = 14,
    SULYTEROM_EMPTY_ELIM = 15,
    SULYTEROM_UNIT = 16,
    SULYTEROM_STAR = 17,
    SULYTEROM_UNIT_ELIM = 18,
    SULYTEROM_NAT = 19,
    SULYTEROM_ZERO = 20,
    SULYTEROM_SUCC = 21,
    SULYTEROM_NAT_ELIM = 22,
    SULYTEROM_ANN = 23,
    SULYTEROM_REF = 24,  /* surface only */
    SULYTEROM_ARROW = 25 /* surface only: its core row is a pi */
} sulyterom_kind;

/* The kind of a declaration, the first word of its record. */
typedef enum sulyterom_declaration_kind {
    SULYTEROM_POSTULATE = 1,
    SULYTEROM_TRANSPARENT = 2,
    SULYTEROM_OPAQUE = 3
} sulyterom_declaration_kind;

/* The kind of a token. */
typedef enum sulyterom_token_kind {
    SULYTEROM_LEFT_PARENTHESIS = 1,
    SULYTEROM_RIGHT_PARENTHESIS = 2,
    SULYTEROM_ATOM = 3,
    SULYTEROM_END = 4 /* no bytes, at the source's length */
} sulyterom_token_kind;

/* The words of a record. The declaration at place d, from 0, begins at word d * SULYTEROM_RECORD_WORDS. The name of one
   that was read from a core text is what stands there between the quotes: a quote and a backslash have a backslash
   before them in it, which counts. */
#define SULYTEROM_RECORD_KIND 0
#define SULYTEROM_RECORD_NAME_START 1
#define SULYTEROM_RECORD_NAME_LENGTH 2
#define SULYTEROM_RECORD_TYPE_ROW 3
#define SULYTEROM_RECORD_BODY_ROW 4 /* 0 for a postulate, which has no body */

/* Loads a source.

   Accepted: returns 0 and leaves in
       answer        2, the number of rows, the number of declarations
       surface       the rows as they were read, then 0
       core          as many rows, with names resolved, then 0
       declarations  the records, then 0
       work          0

   Refused: returns the class and leaves in
       answer        1, the offset, 0; or 0, 0, 0 where there is no place
       all tables    0

   An answer table of fewer than three numbers is left as it is. */
uint8_t sulyterom_load(const uint8_t *source, size_t source_length, uint32_t *surface, size_t surface_length,
                       uint32_t *core, size_t core_length, uint32_t *declarations, size_t declarations_length,
                       uint32_t *work, size_t work_length, uint64_t *answer, size_t answer_length);

/* Reads a source as loading does, and looks at no name: 4 and 5 are not given, and there is no core table.

   Accepted: returns 0 and leaves answer, surface, declarations and work as sulyterom_load does; refused likewise. */
uint8_t sulyterom_parse(const uint8_t *source, size_t source_length, uint32_t *surface, size_t surface_length,
                        uint32_t *declarations, size_t declarations_length, uint32_t *work, size_t work_length,
                        uint64_t *answer, size_t answer_length);

/* Loads a source as sulyterom_load does, and writes its listing into text, or the line of its refusal; what lies behind
   the text is left as it is. Every line ends with byte 10, and there is no byte 0 at the end.

   Returns what sulyterom_load returns, and leaves in answer, which has room for SULYTEROM_LONG_ANSWER_WORDS numbers,
   one value more than it: 3, rows, declarations, length; or 2, offset, length, 0; or 1, length, 0, 0. The length is
   the text's, or one more than text_length if the text did not fit and was cut. */
uint8_t sulyterom_list(const uint8_t *source, size_t source_length, uint32_t *surface, size_t surface_length,
                       uint32_t *core, size_t core_length, uint32_t *declarations, size_t declarations_length,
                       uint32_t *work, size_t work_length, uint8_t *text, size_t text_length, uint64_t *answer,
                       size_t answer_length);

/* These three load, read and list by the plain reader.

   There are two readers of sources. The frame reader, which all other functions read by, keeps the open forms as frames
   in the work area. The plain reader is written as the grammar reads: it calls itself for the terms in a form, and so
   takes more stack, up to SULYTEROM_PLAIN_STACK_BYTES. What follows reading is shared.

   Each returns what the function without _plain returns, and leaves the same answer and text and the same words in
   every table, for every source and for tables of any length and former content. This is proved (EitherReader in
   crates/loader/specs/Statements.antt), so that either reader may stand in a station. 7 is given at the same moment. 11
   is given too, though this reader needs no work area, and the work area is 0 afterwards. */
uint8_t sulyterom_load_plain(const uint8_t *source, size_t source_length, uint32_t *surface, size_t surface_length,
                             uint32_t *core, size_t core_length, uint32_t *declarations, size_t declarations_length,
                             uint32_t *work, size_t work_length, uint64_t *answer, size_t answer_length);

uint8_t sulyterom_parse_plain(const uint8_t *source, size_t source_length, uint32_t *surface, size_t surface_length,
                              uint32_t *declarations, size_t declarations_length, uint32_t *work, size_t work_length,
                              uint64_t *answer, size_t answer_length);

uint8_t sulyterom_list_plain(const uint8_t *source, size_t source_length, uint32_t *surface, size_t surface_length,
                             uint32_t *core, size_t core_length, uint32_t *declarations, size_t declarations_length,
                             uint32_t *work, size_t work_length, uint8_t *text, size_t text_length, uint64_t *answer,
                             size_t answer_length);

/* The first token at or behind an offset, with layout and comments before it passed over. Whether the source is UTF-8
   is not looked at.

   A token: returns 0 and leaves in answer 3, its kind, its first byte's offset, the offset behind its last byte.
   Refused: returns 1 and leaves 1, the offset of a byte that can be no part of a token, 0, 0. */
uint8_t sulyterom_token(const uint8_t *source, size_t source_length, size_t at, uint64_t *answer,
                        size_t answer_length);

/* The module's name, from the head of a source: that in the shortest beginning of the source that would be accepted by
   itself. It ends at the module line's parenthesis, and nothing behind it is looked at: there the source may hold
   anything and go on over SULYTEROM_LONGEST_SOURCE bytes. For a source that loads it is the name with which loading
   begins, and keeps not. No table is lent, and a file need not be read whole: a name that its beginning gives is the
   file's, and with SULYTEROM_HEAD_BYTES bytes of it, or all where there are fewer, a refusal is the file's too.

   The head is that of either edition; arrow may name a module of 0 1, and is refused with 3 in 0 2.

   A name: returns 0 and leaves in answer 2, the offset of its first byte, its length. Refused, where there is no such
   beginning: returns the class with which the whole source is refused, 1, 2, 3 or 6, and leaves what sulyterom_load
   leaves: 6 by the length, then 1 where it is not UTF-8, then what the head is refused for. */
uint8_t sulyterom_head(const uint8_t *source, size_t source_length, uint64_t *answer, size_t answer_length);

/* Reads a source as loading does, with no table for rows or declarations, and tells what it needs: the rows of each row
   table, the records of the declaration list, and the frames that are open together in one type or body. A frame is a
   form with terms in it: empty, unit, star, nat, zero, ref and universe have 0, a form has 1 more than the most of its
   terms, and a source has the most of its types and bodies. They stand in the work area, which has room for
   SULYTEROM_MOST_FRAMES. Names are not looked at.

   Accepted: returns 0 and leaves in
       answer        3, the rows, the declarations, the frames
       work          0

   Refused, with 11, 6, 1, 2, 3 or 7 as sulyterom_load with tables that suffice, in the same order: returns the class
   and leaves in
       answer        1, the offset, 0, 0; or 0, 0, 0, 0 where there is no place
       work          0

   With row tables of so many rows and a list of so many records, and any words more that make no further one, loading
   answers and leaves what it does with larger ones; that may be 4 or 5, which are not given here. With fewer surface
   rows it refuses with 8, with fewer records with 9, with both fewer with the one that reading meets first, which is 9
   where one of each is missing, and with fewer core rows alone with 10.

   An answer table of fewer than four numbers is left as it is. */
uint8_t sulyterom_storage(const uint8_t *source, size_t source_length, uint32_t *work, size_t work_length,
                          uint64_t *answer, size_t answer_length);

/* Asks whether the declaration at place i depends on the one at place j: whether some global row in i's type or body
   names a place that shows j. Place k shows j if k is j, or if a global row in k's type, or in k's body where k is
   transparent, names a place that shows j. So i's own body counts whatever its kind, and an opaque body of a
   declaration on the way from i to j does not. A global row names an earlier place, so i depends on earlier places
   only: all that depend on j are found by asking of each place behind it. The source is loaded first.

   Yes: returns 0 and leaves in answer 1, the number of the first row of i that names a place that shows j, 0. The
   first is the one with the lowest number, which stands first in the source, in the type before the body. The place
   need not be j, even where a later row names j itself. No: returns 0 and leaves 0, 0, 0. After both the tables hold
   what loading leaves.

   Refused, by loading or, after it, since i or j is not the place of a declaration (12, without a place): returns the
   class, with the answer and the tables as sulyterom_load leaves them. */
uint8_t sulyterom_depends(const uint8_t *source, size_t source_length, size_t i, size_t j, uint32_t *surface,
                          size_t surface_length, uint32_t *core, size_t core_length, uint32_t *declarations,
                          size_t declarations_length, uint32_t *work, size_t work_length, uint64_t *answer,
                          size_t answer_length);

/* Asks what binds the reference at a row: the innermost pi, sigma or lam of its name in whose codomain or body it
   stands or, where there is none, the earlier declaration of its name. An arrow binds no name, so that it is never the
   answer; in its codomain it counts. The source is loaded first.

   A form: returns 0 and leaves in answer 2, the count, which is that of the core row, and the surface row of the form,
   which is higher than the reference's own. A declaration: returns 0 and leaves 1, its place, 0. After both the tables
   hold what loading leaves.

   Refused, by loading or, after it, since the row is no row of the source or is no ref (12, without a place): returns
   the class, with the answer and the tables as sulyterom_load leaves them. */
uint8_t sulyterom_binder(const uint8_t *source, size_t source_length, size_t row, uint32_t *surface,
                         size_t surface_length, uint32_t *core, size_t core_length, uint32_t *declarations,
                         size_t declarations_length, uint32_t *work, size_t work_length, uint64_t *answer,
                         size_t answer_length);

/* Asks whether two sources leave the same core: whether they agree in all but binder names, layout, comments and the
   module names. The two may be of different editions: an arrow agrees with a pi whose name is not used. Each source is
   loaded into its own set of tables, the first one first; one work area serves both.

   Yes: returns 0 and leaves in answer 0, 0, 0. No: returns 0 and leaves 1, the place of the first declaration at which
   the two part, 0; where one source is a beginning of the other, the number of its declarations. After both the tables
   hold what loading leaves.

   Refused: returns the class and leaves in answer 2, which source, 1 or 2, and the offset; or 1, which source, 0 where
   there is no place. All tables, of both sets, are then 0. */
uint8_t sulyterom_same(const uint8_t *first, size_t first_length, const uint8_t *second, size_t second_length,
                       uint32_t *surface1, size_t surface1_length, uint32_t *core1, size_t core1_length,
                       uint32_t *declarations1, size_t declarations1_length, uint32_t *surface2,
                       size_t surface2_length, uint32_t *core2, size_t core2_length, uint32_t *declarations2,
                       size_t declarations2_length, uint32_t *work, size_t work_length, uint64_t *answer,
                       size_t answer_length);

/* Loads a source as sulyterom_load does, and writes its core text into text: the module with its references as
   numbers, in one line that ends with byte 10. The text of a source of either edition has format 0 1, and a pi for an
   arrow. SULYTEROM_TEXT_FOR says how long it can be.

   Accepted: returns 0 and leaves in
       answer        1, the text's length in bytes, byte 10 included, 0
       text          the text, then 0
       all tables    what loading leaves

   Refused, by loading or, after it, since text_length is less than the text's length (14, without a place): returns
   the class, with the answer as sulyterom_load leaves it and 0 in text and all tables. */
uint8_t sulyterom_print(const uint8_t *source, size_t source_length, uint32_t *surface, size_t surface_length,
                        uint32_t *core, size_t core_length, uint32_t *declarations, size_t declarations_length,
                        uint32_t *work, size_t work_length, uint8_t *text, size_t text_length, uint64_t *answer,
                        size_t answer_length);

/* Reads a core text in any layout.

   Accepted: returns 0 and leaves in
       answer        2, the number of rows, the number of declarations
       core          the rows, which refer to the text, then 0
       declarations  the records, whose names stand in the text, then 0
       work          0

   Refused, with 2, 6, 7, 9, 10, 11 or 13: returns the class and leaves in
       answer        1, the offset, 0; or 0, 0, 0 where there is no place
       all tables    0
   10 is given as soon as a term is complete and the core table is full.

   What is left is not what loading leaves (see sulyterom_kind): var and global have digits in the place of a number. */
uint8_t sulyterom_read_core(const uint8_t *text, size_t text_length, uint32_t *core, size_t core_length,
                            uint32_t *declarations, size_t declarations_length, uint32_t *work, size_t work_length,
                            uint64_t *answer, size_t answer_length);

/* Reads a core text as sulyterom_read_core does, but takes it only if it is, byte for byte, what printing its module
   gives: then equal modules have equal texts. Every other text is refused with 13 without a place, after all else. A
   text that sulyterom_print wrote is taken. */
uint8_t sulyterom_read_canonical(const uint8_t *text, size_t text_length, uint32_t *core, size_t core_length,
                                 uint32_t *declarations, size_t declarations_length, uint32_t *work,
                                 size_t work_length, uint64_t *answer, size_t answer_length);

/* Rows, records and tables as structs.

   A row and a record are the words described above, so that a table of these is the table of words that the functions
   take; there are no words left over. A list of n records is refused with 9 for a source with more declarations. */
typedef struct sulyterom_row {
    uint32_t kind; /* sulyterom_kind */
    uint32_t fields[SULYTEROM_ROW_OFFSET - 1];
    uint32_t offset; /* of the term's first byte in the source, or in the core text that was read */
} sulyterom_row;

typedef struct sulyterom_declaration {
    uint32_t kind;        /* sulyterom_declaration_kind */
    uint32_t name_start;  /* bytes of the source, or of the core text that was read */
    uint32_t name_length; /* bytes of the same */
    uint32_t type_row;
    uint32_t body_row; /* 0 for a postulate */
} sulyterom_declaration;

/* They have no other bytes; a size that is negative does not compile. */
typedef char sulyterom_row_is_its_words[sizeof(sulyterom_row) == SULYTEROM_ROW_WORDS * sizeof(uint32_t) ? 1 : -1];
typedef char
    sulyterom_record_is_its_words[sizeof(sulyterom_declaration) == SULYTEROM_RECORD_WORDS * sizeof(uint32_t) ? 1 : -1];

/* What a call is lent. */
typedef struct sulyterom_tables {
    sulyterom_row *surface;
    size_t surface_rows;
    sulyterom_row *core;
    size_t core_rows;
    sulyterom_declaration *declarations;
    size_t declaration_records;
    uint32_t *work;
    size_t work_words;
} sulyterom_tables;

/* What sulyterom_load_into and sulyterom_load_plain_into answer, and sulyterom_read_core_into and
   sulyterom_read_canonical_into. The last two are 0 after a refusal; has_offset and offset are 0 where there is no
   place. */
typedef struct sulyterom_loaded {
    sulyterom_class refused; /* SULYTEROM_ACCEPTED: it is not */
    int has_offset;
    size_t offset;
    size_t rows;
    size_t declarations;
} sulyterom_loaded;

/* What sulyterom_list_into and sulyterom_list_plain_into answer: as sulyterom_loaded, and the text. */
typedef struct sulyterom_listed {
    sulyterom_loaded loaded;
    size_t length; /* of the text, as far as it is written */
    int is_cut;    /* whether there was no room for all of it */
} sulyterom_listed;

/* What sulyterom_token_at answers. */
typedef struct sulyterom_token_read {
    sulyterom_class refused;
    size_t offset; /* of the refused byte */
    sulyterom_token_kind kind;
    size_t start;
    size_t end;
} sulyterom_token_read;

/* What sulyterom_head_of answers. */
typedef struct sulyterom_module_name {
    sulyterom_class refused;
    int has_offset;
    size_t offset;
    size_t start;  /* of the name in the source */
    size_t length; /* of the name; 0 after a refusal */
} sulyterom_module_name;

/* What sulyterom_storage_of answers: what a source needs, 0 after a refusal. A station lends it rows *
   SULYTEROM_ROW_WORDS words of surface rows, as many of core rows, declarations * SULYTEROM_RECORD_WORDS words of
   declarations and SULYTEROM_WORK_WORDS words of work area; in sulyterom_tables rows, rows and declarations. */
typedef struct sulyterom_needs {
    sulyterom_class refused;
    int has_offset;
    size_t offset;
    size_t rows;         /* of the surface table, and of the core table */
    size_t declarations; /* records of the declaration list */
    size_t frames;       /* open at the same time in one type or body */
} sulyterom_needs;

/* What sulyterom_depends_in answers. */
typedef struct sulyterom_dependence {
    sulyterom_class refused;
    int has_offset;
    size_t offset;
    int yes;    /* whether i depends on j */
    size_t row; /* if so, the first global row of i that names a place that shows j, as sulyterom_depends has it */
} sulyterom_dependence;

/* What sulyterom_binder_in answers. */
typedef struct sulyterom_binding {
    sulyterom_class refused;
    int has_offset;
    size_t offset;
    int is_local; /* whether a pi, sigma or lam binds the reference; else it is a declaration's name */
    size_t count; /* of binders between the two, if local */
    size_t row;   /* of the binding form in the surface table, if local */
    size_t place; /* of the declaration, if not */
} sulyterom_binding;

/* What sulyterom_same_in answers. */
typedef struct sulyterom_comparison {
    sulyterom_class refused;
    int has_offset;
    size_t offset;
    int which;          /* the source that is refused, 1 or 2; else 0 */
    int same;           /* whether both leave the same core */
    size_t declaration; /* the first place at which they part, if not */
} sulyterom_comparison;

/* What sulyterom_print_into answers. */
typedef struct sulyterom_printed {
    sulyterom_class refused;
    int has_offset;
    size_t offset;
    size_t length; /* of the text, its last byte 10 included; 0 after a refusal */
} sulyterom_printed;

/* What loading, or reading a core text, returned and left in its answer. */
static inline sulyterom_loaded sulyterom_loaded_of(uint8_t number, const uint64_t *answer) {
    sulyterom_loaded told = {(sulyterom_class)number, 0, 0, 0, 0};
    if (told.refused == SULYTEROM_ACCEPTED) {
        told.rows = (size_t)answer[1];
        told.declarations = (size_t)answer[2];
    } else {
        told.has_offset = answer[0] == 1;
        told.offset = (size_t)answer[1];
    }
    return told;
}

/* Loading by one of the two readers: sulyterom_load or sulyterom_load_plain. */
typedef uint8_t sulyterom_load_function(const uint8_t *source, size_t source_length, uint32_t *surface,
                                        size_t surface_length, uint32_t *core, size_t core_length,
                                        uint32_t *declarations, size_t declarations_length, uint32_t *work,
                                        size_t work_length, uint64_t *answer, size_t answer_length);

/* As the given function. */
static inline sulyterom_loaded sulyterom_load_by(sulyterom_load_function *load, const uint8_t *source,
                                                 size_t source_length, const sulyterom_tables *tables) {
    uint64_t answer[SULYTEROM_ANSWER_WORDS] = {0, 0, 0};
    uint8_t number = load(
        source, source_length, (uint32_t *)tables->surface, tables->surface_rows * SULYTEROM_ROW_WORDS,
        (uint32_t *)tables->core, tables->core_rows * SULYTEROM_ROW_WORDS, (uint32_t *)tables->declarations,
        tables->declaration_records * SULYTEROM_RECORD_WORDS, tables->work, tables->work_words, answer,
        SULYTEROM_ANSWER_WORDS);
    return sulyterom_loaded_of(number, answer);
}

/* As sulyterom_load. */
static inline sulyterom_loaded sulyterom_load_into(const uint8_t *source, size_t source_length,
                                                   const sulyterom_tables *tables) {
    return sulyterom_load_by(sulyterom_load, source, source_length, tables);
}

/* As sulyterom_load_plain. */
static inline sulyterom_loaded sulyterom_load_plain_into(const uint8_t *source, size_t source_length,
                                                         const sulyterom_tables *tables) {
    return sulyterom_load_by(sulyterom_load_plain, source, source_length, tables);
}

/* Listing by one of the two readers: sulyterom_list or sulyterom_list_plain. */
typedef uint8_t sulyterom_list_function(const uint8_t *source, size_t source_length, uint32_t *surface,
                                        size_t surface_length, uint32_t *core, size_t core_length,
                                        uint32_t *declarations, size_t declarations_length, uint32_t *work,
                                        size_t work_length, uint8_t *text, size_t text_length, uint64_t *answer,
                                        size_t answer_length);

/* As the given function. */
static inline sulyterom_listed sulyterom_list_by(sulyterom_list_function *list, const uint8_t *source,
                                                 size_t source_length, const sulyterom_tables *tables, uint8_t *text,
                                                 size_t text_length) {
    uint64_t answer[SULYTEROM_LONG_ANSWER_WORDS] = {0, 0, 0, 0};
    sulyterom_listed told = {{SULYTEROM_ACCEPTED, 0, 0, 0, 0}, 0, 0};
    told.loaded.refused = (sulyterom_class)list(
        source, source_length, (uint32_t *)tables->surface, tables->surface_rows * SULYTEROM_ROW_WORDS,
        (uint32_t *)tables->core, tables->core_rows * SULYTEROM_ROW_WORDS, (uint32_t *)tables->declarations,
        tables->declaration_records * SULYTEROM_RECORD_WORDS, tables->work, tables->work_words, text, text_length, answer,
        SULYTEROM_LONG_ANSWER_WORDS);
    if (told.loaded.refused == SULYTEROM_ACCEPTED) {
        told.loaded.rows = (size_t)answer[1];
        told.loaded.declarations = (size_t)answer[2];
        told.length = (size_t)answer[3];
    } else if (answer[0] == 2) {
        told.loaded.has_offset = 1;
        told.loaded.offset = (size_t)answer[1];
        told.length = (size_t)answer[2];
    } else {
        told.length = (size_t)answer[1];
    }
    told.is_cut = told.length > text_length;
    if (told.is_cut) told.length = text_length;
    return told;
}

/* As sulyterom_list. */
static inline sulyterom_listed sulyterom_list_into(const uint8_t *source, size_t source_length,
                                                   const sulyterom_tables *tables, uint8_t *text, size_t text_length) {
    return sulyterom_list_by(sulyterom_list, source, source_length, tables, text, text_length);
}

/* As sulyterom_list_plain. */
static inline sulyterom_listed sulyterom_list_plain_into(const uint8_t *source, size_t source_length,
                                                         const sulyterom_tables *tables, uint8_t *text,
                                                         size_t text_length) {
    return sulyterom_list_by(sulyterom_list_plain, source, source_length, tables, text, text_length);
}

/* As sulyterom_token. */
static inline sulyterom_token_read sulyterom_token_at(const uint8_t *source, size_t source_length, size_t at) {
    uint64_t answer[SULYTEROM_LONG_ANSWER_WORDS] = {0, 0, 0, 0};
    sulyterom_token_read told = {SULYTEROM_ACCEPTED, 0, SULYTEROM_END, 0, 0};
    told.refused = (sulyterom_class)sulyterom_token(source, source_length, at, answer, SULYTEROM_LONG_ANSWER_WORDS);
    if (told.refused == SULYTEROM_ACCEPTED) {
        told.kind = (sulyterom_token_kind)answer[1];
        told.start = (size_t)answer[2];
        told.end = (size_t)answer[3];
    } else {
        told.offset = (size_t)answer[1];
    }
    return told;
}

/* As sulyterom_head. */
static inline sulyterom_module_name sulyterom_head_of(const uint8_t *source, size_t source_length) {
    uint64_t answer[SULYTEROM_ANSWER_WORDS] = {0, 0, 0};
    sulyterom_module_name told = {SULYTEROM_ACCEPTED, 0, 0, 0, 0};
    told.refused = (sulyterom_class)sulyterom_head(source, source_length, answer, SULYTEROM_ANSWER_WORDS);
    if (told.refused == SULYTEROM_ACCEPTED) {
        told.start = (size_t)answer[1];
        told.length = (size_t)answer[2];
    } else {
        told.has_offset = answer[0] == 1;
        told.offset = (size_t)answer[1];
    }
    return told;
}

/* As sulyterom_storage. */
static inline sulyterom_needs sulyterom_storage_of(const uint8_t *source, size_t source_length, uint32_t *work,
                                                   size_t work_words) {
    uint64_t answer[SULYTEROM_LONG_ANSWER_WORDS] = {0, 0, 0, 0};
    sulyterom_needs told = {SULYTEROM_ACCEPTED, 0, 0, 0, 0, 0};
    told.refused = (sulyterom_class)sulyterom_storage(source, source_length, work, work_words, answer,
                                                      SULYTEROM_LONG_ANSWER_WORDS);
    if (told.refused == SULYTEROM_ACCEPTED) {
        told.rows = (size_t)answer[1];
        told.declarations = (size_t)answer[2];
        told.frames = (size_t)answer[3];
    } else {
        told.has_offset = answer[0] == 1;
        told.offset = (size_t)answer[1];
    }
    return told;
}

/* As sulyterom_depends: of several rows the first is shown. */
static inline sulyterom_dependence sulyterom_depends_in(const uint8_t *source, size_t source_length, size_t i, size_t j,
                                                        const sulyterom_tables *tables) {
    uint64_t answer[SULYTEROM_ANSWER_WORDS] = {0, 0, 0};
    sulyterom_dependence told = {SULYTEROM_ACCEPTED, 0, 0, 0, 0};
    told.refused = (sulyterom_class)sulyterom_depends(
        source, source_length, i, j, (uint32_t *)tables->surface, tables->surface_rows * SULYTEROM_ROW_WORDS,
        (uint32_t *)tables->core, tables->core_rows * SULYTEROM_ROW_WORDS, (uint32_t *)tables->declarations,
        tables->declaration_records * SULYTEROM_RECORD_WORDS, tables->work, tables->work_words, answer,
        SULYTEROM_ANSWER_WORDS);
    if (told.refused == SULYTEROM_ACCEPTED) {
        told.yes = answer[0] == 1;
        told.row = (size_t)answer[1];
    } else {
        told.has_offset = answer[0] == 1;
        told.offset = (size_t)answer[1];
    }
    return told;
}

/* As sulyterom_binder. */
static inline sulyterom_binding sulyterom_binder_in(const uint8_t *source, size_t source_length, size_t row,
                                                    const sulyterom_tables *tables) {
    uint64_t answer[SULYTEROM_ANSWER_WORDS] = {0, 0, 0};
    sulyterom_binding told = {SULYTEROM_ACCEPTED, 0, 0, 0, 0, 0, 0};
    told.refused = (sulyterom_class)sulyterom_binder(
        source, source_length, row, (uint32_t *)tables->surface, tables->surface_rows * SULYTEROM_ROW_WORDS,
        (uint32_t *)tables->core, tables->core_rows * SULYTEROM_ROW_WORDS, (uint32_t *)tables->declarations,
        tables->declaration_records * SULYTEROM_RECORD_WORDS, tables->work, tables->work_words, answer,
        SULYTEROM_ANSWER_WORDS);
    if (told.refused != SULYTEROM_ACCEPTED) {
        told.has_offset = answer[0] == 1;
        told.offset = (size_t)answer[1];
    } else if (answer[0] == 2) {
        told.is_local = 1;
        told.count = (size_t)answer[1];
        told.row = (size_t)answer[2];
    } else {
        told.place = (size_t)answer[1];
    }
    return told;
}

/* As sulyterom_same. The work area of the first tables serves both; that of the second is not used. */
static inline sulyterom_comparison sulyterom_same_in(const uint8_t *first, size_t first_length, const uint8_t *second,
                                                     size_t second_length, const sulyterom_tables *tables1,
                                                     const sulyterom_tables *tables2) {
    uint64_t answer[SULYTEROM_ANSWER_WORDS] = {0, 0, 0};
    sulyterom_comparison told = {SULYTEROM_ACCEPTED, 0, 0, 0, 0, 0};
    told.refused = (sulyterom_class)sulyterom_same(
        first, first_length, second, second_length, (uint32_t *)tables1->surface,
        tables1->surface_rows * SULYTEROM_ROW_WORDS, (uint32_t *)tables1->core, tables1->core_rows * SULYTEROM_ROW_WORDS,
        (uint32_t *)tables1->declarations, tables1->declaration_records * SULYTEROM_RECORD_WORDS,
        (uint32_t *)tables2->surface, tables2->surface_rows * SULYTEROM_ROW_WORDS, (uint32_t *)tables2->core,
        tables2->core_rows * SULYTEROM_ROW_WORDS, (uint32_t *)tables2->declarations,
        tables2->declaration_records * SULYTEROM_RECORD_WORDS, tables1->work, tables1->work_words, answer,
        SULYTEROM_ANSWER_WORDS);
    if (told.refused == SULYTEROM_ACCEPTED) {
        told.same = answer[0] == 0;
        told.declaration = (size_t)answer[1];
    } else {
        told.which = (int)answer[1];
        told.has_offset = answer[0] == 2;
        told.offset = (size_t)answer[2];
    }
    return told;
}

/* As sulyterom_print. */
static inline sulyterom_printed sulyterom_print_into(const uint8_t *source, size_t source_length,
                                                     const sulyterom_tables *tables, uint8_t *text, size_t text_length) {
    uint64_t answer[SULYTEROM_ANSWER_WORDS] = {0, 0, 0};
    sulyterom_printed told = {SULYTEROM_ACCEPTED, 0, 0, 0};
    told.refused = (sulyterom_class)sulyterom_print(
        source, source_length, (uint32_t *)tables->surface, tables->surface_rows * SULYTEROM_ROW_WORDS,
        (uint32_t *)tables->core, tables->core_rows * SULYTEROM_ROW_WORDS, (uint32_t *)tables->declarations,
        tables->declaration_records * SULYTEROM_RECORD_WORDS, tables->work, tables->work_words, text, text_length, answer,
        SULYTEROM_ANSWER_WORDS);
    if (told.refused == SULYTEROM_ACCEPTED) {
        told.length = (size_t)answer[1];
    } else {
        told.has_offset = answer[0] == 1;
        told.offset = (size_t)answer[1];
    }
    return told;
}

/* As sulyterom_read_core. The surface rows are not used. */
static inline sulyterom_loaded sulyterom_read_core_into(const uint8_t *text, size_t text_length,
                                                        const sulyterom_tables *tables) {
    uint64_t answer[SULYTEROM_ANSWER_WORDS] = {0, 0, 0};
    uint8_t number = sulyterom_read_core(
        text, text_length, (uint32_t *)tables->core, tables->core_rows * SULYTEROM_ROW_WORDS,
        (uint32_t *)tables->declarations, tables->declaration_records * SULYTEROM_RECORD_WORDS, tables->work,
        tables->work_words, answer, SULYTEROM_ANSWER_WORDS);
    return sulyterom_loaded_of(number, answer);
}

/* As sulyterom_read_canonical. The surface rows are not used. */
static inline sulyterom_loaded sulyterom_read_canonical_into(const uint8_t *text, size_t text_length,
                                                             const sulyterom_tables *tables) {
    uint64_t answer[SULYTEROM_ANSWER_WORDS] = {0, 0, 0};
    uint8_t number = sulyterom_read_canonical(
        text, text_length, (uint32_t *)tables->core, tables->core_rows * SULYTEROM_ROW_WORDS,
        (uint32_t *)tables->declarations, tables->declaration_records * SULYTEROM_RECORD_WORDS, tables->work,
        tables->work_words, answer, SULYTEROM_ANSWER_WORDS);
    return sulyterom_loaded_of(number, answer);
}

/* A class in a few words; "" for a number that is none. */
static inline const char *sulyterom_class_text(sulyterom_class number) {
    switch (number) {
    case SULYTEROM_ACCEPTED: return "accepted";
    case SULYTEROM_MALFORMED: return "malformed source";
    case SULYTEROM_VERSION: return "source version other than 0 1 and 0 2, or core text version other than 0 1";
    case SULYTEROM_RESERVED_NAME: return "reserved word where a name must stand";
    case SULYTEROM_DUPLICATE_NAME: return "declaration name used before";
    case SULYTEROM_UNKNOWN_NAME: return "unknown name";
    case SULYTEROM_LONG_SOURCE: return "source over 65,535 bytes, or core text over 4,294,967,295";
    case SULYTEROM_FRAMES: return "more than 512 forms open in one term";
    case SULYTEROM_SURFACE_FULL: return "surface row table full";
    case SULYTEROM_DECLARATIONS_FULL: return "declaration list full";
    case SULYTEROM_CORE_SHORT: return "core table has fewer rows than were read";
    case SULYTEROM_WORK_SHORT: return "work area under 16,384 words";
    case SULYTEROM_NO_DECLARATION: return "no declaration at a place asked of, or no reference at a row";
    case SULYTEROM_CORE_TEXT: return "malformed or noncanonical core text";
    case SULYTEROM_TEXT_SHORT: return "text buffer shorter than the text";
    }
    return "";
}

#ifdef __cplusplus
}
#endif

#endif
