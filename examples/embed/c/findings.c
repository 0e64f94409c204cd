/* Prints the findings of a file beside its lines, or what the match of one function does with a value.

       findings FILE
       findings FILE FUNCTION VALUE [ANSWERS]

   The exit status is that of the library. */
#include "matchcheck.h"

#include <stdio.h>
#include <stdlib.h>
#include <string.h>

/* Bytes that this program owns. */
struct bytes {
    uint8_t *at;
    size_t length;
};

static void fail(const char *why) {
    fprintf(stderr, "findings: %s\n", why);
    exit(2);
}

static struct bytes file_of(const char *name) {
    FILE *file = fopen(name, "rb");
    struct bytes all = {malloc(1), 0};
    char piece[4096];
    size_t count;
    if (file == NULL)
        fail("the file cannot be read");
    while ((count = fread(piece, 1, sizeof piece, file)) > 0) {
        if (all.at == NULL || (all.at = realloc(all.at, all.length + count)) == NULL)
            fail("memory is refused");
        memcpy(all.at + all.length, piece, count);
        all.length += count;
    }
    fclose(file);
    return all;
}

/* Room of so many bytes. The library asks that they are initialised, and that there is an address for none. */
static struct bytes room_of(size_t length) {
    struct bytes room = {calloc(length + 1, 1), length};
    if (room.at == NULL)
        fail("memory is refused");
    return room;
}

static uint8_t report_of(const struct matchcheck_question *question, struct bytes source, struct bytes *report) {
    struct matchcheck_told told;
    *report = room_of(1024);
    told = matchcheck_report(question, source.at, source.length, report->at, report->length);
    if (told.status == MATCHCHECK_NO_ROOM) {
        free(report->at);
        *report = room_of(told.length);
        told = matchcheck_report(question, source.at, source.length, report->at, report->length);
    }
    report->length = told.length;
    return told.status;
}

static uint8_t explain(const char *name, struct bytes source, struct bytes report, struct bytes *text) {
    const uint8_t *title = (const uint8_t *)name;
    struct matchcheck_told told;
    *text = room_of(1024);
    told = matchcheck_explain(title, strlen(name), source.at, source.length, report.at, report.length,
                              MATCHCHECK_NO_TEXT, 0, text->at, text->length);
    if (told.status == MATCHCHECK_NO_ROOM) {
        free(text->at);
        *text = room_of(told.length);
        told = matchcheck_explain(title, strlen(name), source.at, source.length, report.at, report.length,
                                  MATCHCHECK_NO_TEXT, 0, text->at, text->length);
    }
    text->length = told.length;
    return told.status;
}

static void set(const uint8_t **at, size_t *length, const char *word) {
    *at = (const uint8_t *)word;
    *length = strlen(word);
}

int main(int count, char **words) {
    struct matchcheck_question question = MATCHCHECK_QUESTION(MATCHCHECK_CHECK);
    struct bytes source, report, text;
    uint8_t status;
    if (count != 2 && count != 4 && count != 5)
        fail("findings FILE [FUNCTION VALUE [ANSWERS]]");
    source = file_of(words[1]);
    if (count > 2) {
        question.command = MATCHCHECK_EVAL;
        set(&question.function, &question.function_length, words[2]);
        set(&question.value, &question.value_length, words[3]);
        if (count > 4)
            set(&question.answers, &question.answers_length, words[4]);
    }
    status = report_of(&question, source, &report);
    if (count > 2) {
        fwrite(report.at, 1, report.length, stdout);
    } else if (status == MATCHCHECK_CLEAN || status == MATCHCHECK_FOUND || status == MATCHCHECK_REFUSED) {
        explain(words[1], source, report, &text);
        fwrite(text.at, 1, text.length, stdout);
        free(text.at);
    }
    free(report.at);
    free(source.at);
    return status;
}
