/* matchcheck: a proved checker of Rust `match` expressions, for programs in C and for whatever calls C.

   Link libmatchcheck_c.a (tools/library builds it) and an allocator, which is described below.

   What is proved of both calls (crates/matchcheck_c, clauses `whole`, `small` and `memory`):

   - With MATCHCHECK_CLEAN, _FOUND and _REFUSED the text stands in the first `length` bytes of the room.
     matchcheck_report has the text and the status that the program `matchcheck` has for a file with these bytes.
   - The bytes of the room behind the text are as they were. No 0 stands behind the text.
   - With MATCHCHECK_NO_ROOM the text has `length` bytes, more than the room. The room is as it was.
   - With MATCHCHECK_NO_FORM and _NO_MEMORY `length` is 0. The room is as it was.
   - Every call returns, with one of the statuses below. No byte is read or written beyond what is passed.

   No call keeps anything: there is no state, no lock, and nothing to free. Any number of threads may call at once.
   No call unwinds or aborts. Each thread needs 1 MiB of stack: with less the system may end the program.

   What a caller owes, which nothing checks:

   - Each pointer points to as many bytes as the length behind it says. It is not null, also where the length is 0.
   - The bytes of the room are initialised. No other thread reads or writes them during the call.
   - No thread writes the question, its texts, the source, the name or the report during the call.
   - The room overlaps none of these.
   - No call comes from a signal handler, or from the child of fork() in a process with threads. */
#ifndef MATCHCHECK_H
#define MATCHCHECK_H

#include <stddef.h>
#include <stdint.h>

#ifdef __cplusplus
extern "C" {
#endif

/* What is asked of a source. docs/use.md describes the commands, docs/report.md the texts. */
enum {
    MATCHCHECK_CHECK = 0, /* the report on each function */
    MATCHCHECK_TREES = 1, /* the same with decision trees */
    MATCHCHECK_ARMS = 2,  /* the arms to add to each match */
    MATCHCHECK_EVAL = 3   /* what the match of one function does with one value */
};

/* How a call ended. */
enum {
    MATCHCHECK_CLEAN = 0,     /* nothing is missing, no rule is broken; of MATCHCHECK_EVAL: an arm takes the value */
    MATCHCHECK_FOUND = 1,     /* a match is not exhaustive, or a rule is broken; of MATCHCHECK_EVAL: no arm takes it */
    MATCHCHECK_NO_FORM = 2,   /* the question stands for nothing; of matchcheck_explain: there is no such report */
    MATCHCHECK_REFUSED = 3,   /* the source is refused as a whole; of MATCHCHECK_EVAL: also the function or the value */
    MATCHCHECK_NO_MEMORY = 6, /* memory was refused */
    MATCHCHECK_NO_ROOM = 7    /* the room is too small */
};

/* How a call ended, and how many bytes its text has. */
struct matchcheck_told {
    uint8_t status;
    size_t length;
};

/* A question. MATCHCHECK_QUESTION makes one without a width, in edition 2024, with empty texts. */
struct matchcheck_question {
    uint8_t command;          /* MATCHCHECK_CHECK, _TREES, _ARMS or _EVAL */
    uint8_t width;            /* the bits of usize and isize: 16, 32 or 64; 0 where they are not known */
    uint16_t edition;         /* 2021 or 2024 */
    const uint8_t *function;  /* of MATCHCHECK_EVAL alone: the name of a function, in UTF-8 */
    size_t function_length;
    const uint8_t *value;     /* of MATCHCHECK_EVAL alone: a value of its scrutinee, in UTF-8 (docs/values.md) */
    size_t value_length;
    const uint8_t *answers;   /* of MATCHCHECK_EVAL alone: the answers of the guards, `t` or `f` each */
    size_t answers_length;
};

#define MATCHCHECK_NO_TEXT ((const uint8_t *)"")
#define MATCHCHECK_QUESTION(command) \
    { (command), 0, 2024, MATCHCHECK_NO_TEXT, 0, MATCHCHECK_NO_TEXT, 0, MATCHCHECK_NO_TEXT, 0 }

/* Puts the text that the question has for the source into the room. Any bytes may be a source.
   A source may have 16,777,216 bytes; a longer one is refused by rule 7. At most one byte more is copied. */
struct matchcheck_told matchcheck_report(const struct matchcheck_question *question,
                                         const uint8_t *source, size_t source_length,
                                         uint8_t *room, size_t room_length);

/* Puts the text for people that a report of MATCHCHECK_CHECK has beside its source into the room. The text shows the
   source under this name, which is in UTF-8. `arms` is the report of MATCHCHECK_ARMS, whose arms are shown in place of
   missing cases, or it is empty. MATCHCHECK_NO_FORM says that a report is none, or is of another source. */
struct matchcheck_told matchcheck_explain(const uint8_t *name, size_t name_length,
                                          const uint8_t *source, size_t source_length,
                                          const uint8_t *report, size_t report_length,
                                          const uint8_t *arms, size_t arms_length,
                                          uint8_t *room, size_t room_length);

/* The allocator is the program's choice. The library calls these three and no other function of the outside.
   KIT/c/liblibc_c.a has them over malloc, realloc and free; examples/embed/c/heap.c has them as a text to start from.

   - rattle_alloc gives a block of so many bytes, aligned to `align`, which is a power of two up to 16.
   - rattle_realloc gives a block of `size` bytes for one of `old` bytes, with its first bytes. A refusal leaves the
     old block as it is.
   - rattle_dealloc takes back a block that one of the two gave.
   - Each may be called by several threads at once.
   - `ok` is 1 and `at` the block, or `ok` is 0 where memory is refused. Where `size` is 0 the block may be any address
     that is not null; it is given back too. */
struct matchcheck_block {
    size_t ok;
    void *at;
};
struct matchcheck_block rattle_alloc(size_t size, size_t align);
struct matchcheck_block rattle_realloc(void *at, size_t old, size_t size, size_t align);
void rattle_dealloc(void *at);

#ifdef __cplusplus
}
#endif
#endif
