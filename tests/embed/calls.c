/* Calls the library on cases and compares what it gives; tests/embed/run compiles it and writes the cases.

       calls rooms              each case with no room, one byte too few, just enough, and more
       calls refusing           each case with each allocation refused in turn, alone and from there on
       calls threads N COUNT    N threads with so many calls each, and with 1 MiB of stack each
       calls speed SECONDS      calls in so many seconds of one processor

   Standard input has a case a line, in words:

       report COMMAND WIDTH EDITION FUNCTION VALUE ANSWERS SOURCE STATUS TEXT
       explain NAME SOURCE REPORT ARMS STATUS TEXT

   Numbers are decimal. A text is the name of a file that holds it.
   The last line says what was tried; the exit status is 1 where an answer is another one. */
#define _POSIX_C_SOURCE 200809L
#include "matchcheck.h"

#include <pthread.h>
#include <stdio.h>
#include <stdlib.h>
#include <string.h>
#include <time.h>

enum { MOST_CASES = 20000, MARGIN = 64, FILLING = 0xa5, STACK = 1 << 20 };

struct text {
    uint8_t *at;
    size_t length;
};

struct one_case {
    int number; /* of its line, from 1 */
    int is_report;
    struct matchcheck_question question;
    struct text name, source, report, arms, wanted;
    int status;
};

static struct one_case cases[MOST_CASES];
static int case_count;
static uint8_t last_status;

/* ---- an allocator that refuses, counted for each thread alone */

static _Thread_local long asked, refused_from, refused_to, refusals, live;

static struct matchcheck_block given(void *at) {
    static char nowhere;
    struct matchcheck_block block = {at != NULL, at != NULL ? at : &nowhere};
    return block;
}

static int is_refused(void) {
    asked++;
    if (asked < refused_from || asked > refused_to)
        return 0;
    refusals++;
    return 1;
}

struct matchcheck_block rattle_alloc(size_t size, size_t align) {
    if (is_refused())
        return given(NULL);
    live++;
    return given(malloc(size != 0 ? size : align));
}

struct matchcheck_block rattle_realloc(void *at, size_t old, size_t size, size_t align) {
    (void)old;
    return given(is_refused() ? NULL : realloc(at, size != 0 ? size : align));
}

void rattle_dealloc(void *at) {
    live--;
    free(at);
}

/* ---- the cases */

static void fail(const char *why, int number) {
    fprintf(stderr, "calls: line %d: %s\n", number, why);
    exit(2);
}

static struct text file_text(const char *path, int number) {
    FILE *file = fopen(path, "rb");
    struct text text = {NULL, 0};
    if (file == NULL || fseek(file, 0, SEEK_END) != 0)
        fail("a file cannot be read", number);
    text.length = (size_t)ftell(file);
    text.at = malloc(text.length + 1);
    rewind(file);
    if (text.at == NULL || fread(text.at, 1, text.length, file) != text.length)
        fail("a file cannot be read", number);
    fclose(file);
    return text;
}

static char *word(int number) {
    char *found = strtok(NULL, " \n");
    if (found == NULL)
        fail("a word is missing", number);
    return found;
}

static void read_question(struct one_case *it) {
    struct text function, value, answers;
    it->question.command = (uint8_t)atoi(word(it->number));
    it->question.width = (uint8_t)atoi(word(it->number));
    it->question.edition = (uint16_t)atoi(word(it->number));
    function = file_text(word(it->number), it->number);
    value = file_text(word(it->number), it->number);
    answers = file_text(word(it->number), it->number);
    it->question.function = function.at;
    it->question.function_length = function.length;
    it->question.value = value.at;
    it->question.value_length = value.length;
    it->question.answers = answers.at;
    it->question.answers_length = answers.length;
}

static void read_cases(void) {
    static char line[65536];
    while (fgets(line, sizeof line, stdin) != NULL) {
        struct one_case *it = &cases[case_count++];
        it->number = case_count;
        it->is_report = strcmp(strtok(line, " \n"), "report") == 0;
        if (it->is_report)
            read_question(it);
        else
            it->name = file_text(word(it->number), it->number);
        it->source = file_text(word(it->number), it->number);
        if (!it->is_report) {
            it->report = file_text(word(it->number), it->number);
            it->arms = file_text(word(it->number), it->number);
        }
        it->status = atoi(word(it->number));
        it->wanted = file_text(word(it->number), it->number);
        if (case_count == MOST_CASES)
            fail("too many cases", case_count);
    }
}

/* ---- one call, in room with bytes of ours around it */

struct room {
    uint8_t *all; /* a margin, the room, a margin */
    size_t length;
};

static struct room room_of(size_t length) {
    struct room room = {malloc(length + 2 * MARGIN), length};
    if (room.all == NULL)
        fail("no memory for a room", 0);
    return room;
}

static struct matchcheck_told call(const struct one_case *it, uint8_t *room, size_t length) {
    if (it->is_report)
        return matchcheck_report(&it->question, it->source.at, it->source.length, room, length);
    return matchcheck_explain(it->name.at, it->name.length, it->source.at, it->source.length, it->report.at,
                              it->report.length, it->arms.at, it->arms.length, room, length);
}

static int is_filling(const uint8_t *from, const uint8_t *to) {
    for (; from < to; from++)
        if (*from != FILLING)
            return 0;
    return 1;
}

/* What is wrong with a call in this room, or NULL. It may want memory where `may_want` says so. */
static const char *wrong_in(const struct one_case *it, struct room room, int may_want) {
    uint8_t *inside = room.all + MARGIN, *end = room.all + room.length + 2 * MARGIN;
    int has_text = it->status != MATCHCHECK_NO_FORM, fits = room.length >= it->wanted.length;
    struct matchcheck_told told;
    size_t written;
    memset(room.all, FILLING, room.length + 2 * MARGIN);
    told = call(it, inside, room.length);
    last_status = told.status;
    if (may_want && told.status == MATCHCHECK_NO_MEMORY)
        return told.length == 0 && is_filling(room.all, end) ? NULL : "want of memory has a length, or wrote";
    written = has_text && fits ? it->wanted.length : 0;
    if (told.status != (has_text && !fits ? MATCHCHECK_NO_ROOM : it->status))
        return "another status";
    if (told.length != (has_text ? it->wanted.length : 0))
        return "another length";
    if (memcmp(inside, it->wanted.at, written) != 0)
        return "another text";
    if (!is_filling(room.all, inside) || !is_filling(inside + written, end))
        return "bytes beside the text are written";
    return NULL;
}

static int tell(const struct one_case *it, const char *wrong, const char *where, size_t length) {
    if (wrong == NULL)
        return 0;
    printf("calls: line %d, %s, room of %zu bytes: %s\n", it->number, where, length, wrong);
    return 1;
}

static int in_room(const struct one_case *it, size_t length) {
    struct room room = room_of(length);
    int is_wrong = tell(it, wrong_in(it, room, 0), "all memory", length);
    free(room.all);
    if (live != 0)
        is_wrong += tell(it, "blocks are not given back", "all memory", length);
    live = 0;
    return is_wrong;
}

static int all_rooms(void) {
    int failed = 0;
    for (int i = 0; i < case_count; i++) {
        size_t length = cases[i].wanted.length;
        int wrong = in_room(&cases[i], 0);
        if (length > 0)
            wrong += in_room(&cases[i], length - 1);
        wrong += in_room(&cases[i], length) + in_room(&cases[i], length + 4096);
        failed += wrong != 0;
    }
    printf("%d passed, %d failed\n", case_count - failed, failed);
    return failed != 0;
}

/* ---- refused memory */

struct counts {
    long calls, wanted, wrong;
};

/* Refuses the allocations from the one number to the other; tells whether one was refused. */
static int refuse(const struct one_case *it, struct room room, long from, long to, struct counts *counts) {
    const char *wrong;
    asked = refusals = 0;
    refused_from = from;
    refused_to = to;
    wrong = wrong_in(it, room, 1);
    if (wrong == NULL && live != 0)
        wrong = "blocks are not given back";
    live = 0;
    counts->wrong += tell(it, wrong, from == to ? "one allocation refused" : "all refused from one on", room.length);
    refused_from = refused_to = 0;
    if (refusals == 0)
        return 0;
    counts->calls++;
    counts->wanted += last_status == MATCHCHECK_NO_MEMORY;
    return 1;
}

static int all_refusals(void) {
    struct counts counts = {0, 0, 0};
    for (int i = 0; i < case_count; i++) {
        struct room room = room_of(cases[i].wanted.length);
        for (long k = 1; refuse(&cases[i], room, k, k, &counts); k++)
            refuse(&cases[i], room, k, 1L << 60, &counts);
        free(room.all);
    }
    printf("%ld calls with refused memory, %ld of them answered by want of memory, %ld wrong\n", counts.calls,
           counts.wanted, counts.wrong);
    return counts.wrong != 0;
}

/* ---- threads, and speed */

static long calls_of_thread;

static void *many(void *start) {
    size_t longest = 0;
    struct room room;
    long failed = 0;
    for (int i = 0; i < case_count; i++)
        longest = cases[i].wanted.length > longest ? cases[i].wanted.length : longest;
    room = room_of(longest);
    for (long i = 0; i < calls_of_thread; i++) {
        const struct one_case *it = &cases[(i + (long)(intptr_t)start) % case_count];
        struct matchcheck_told told = call(it, room.all, longest);
        failed += told.status != it->status || told.length != it->wanted.length
                  || memcmp(room.all, it->wanted.at, told.length) != 0;
    }
    free(room.all);
    return (void *)(intptr_t)(failed + (live != 0));
}

static int all_threads(int count) {
    pthread_t threads[64];
    pthread_attr_t small;
    long failed = 0;
    if (count > 64 || pthread_attr_init(&small) != 0 || pthread_attr_setstacksize(&small, STACK) != 0)
        fail("no such threads can be made", 0);
    for (int i = 0; i < count; i++)
        if (pthread_create(&threads[i], &small, many, (void *)(intptr_t)i) != 0)
            fail("no thread can be made", 0);
    for (int i = 0; i < count; i++) {
        void *answer;
        pthread_join(threads[i], &answer);
        failed += (long)(intptr_t)answer;
    }
    printf("%d threads with %ld calls each, %ld wrong\n", count, calls_of_thread, failed);
    return failed != 0;
}

static double processor_seconds(void) {
    struct timespec now;
    clock_gettime(CLOCK_PROCESS_CPUTIME_ID, &now);
    return (double)now.tv_sec + (double)now.tv_nsec / 1e9;
}

static int speed(double seconds) {
    double begun = processor_seconds(), spent = 0, bytes = 0;
    long made = 0;
    calls_of_thread = case_count;
    for (int i = 0; i < case_count; i++)
        bytes += (double)cases[i].source.length;
    for (; spent < seconds; made += case_count, spent = processor_seconds() - begun)
        if (many(NULL) != NULL)
            return 1;
    printf("%.0f calls a second of one processor, on sources of %.0f bytes in the mean\n", (double)made / spent,
           bytes / case_count);
    return 0;
}

int main(int count, char **words) {
    read_cases();
    if (count == 2 && strcmp(words[1], "rooms") == 0)
        return all_rooms();
    if (count == 2 && strcmp(words[1], "refusing") == 0)
        return all_refusals();
    if (count == 4 && strcmp(words[1], "threads") == 0) {
        calls_of_thread = atol(words[3]);
        return all_threads(atoi(words[2]));
    }
    if (count == 3 && strcmp(words[1], "speed") == 0)
        return speed(atof(words[2]));
    fail("calls rooms | refusing | threads N COUNT | speed SECONDS", 0);
    return 2;
}
