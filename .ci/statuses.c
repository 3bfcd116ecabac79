/* Calls genreq so that each status comes, by the name that genreq.h gives it. The one for a lack of memory is met in calls.c. */
#include "genreq.h"

#include <stdio.h>
#include <string.h>

struct row {
    const char *name; /* what it shows */
    const char *words; /* of which each ends in a zero byte */
    size_t words_length;
    const char *text;
    enum genreq_status status;
    const char *printed; /* what is printed begins so */
};

#define WORDS(words) words, sizeof words - 1

static const struct row rows[] = {
    {"a text that is answered", WORDS("answer"), "func f<T>() query f(T : AnyObject)", GENREQ_ANSWERED, "no\n"},
    {"a text that is refused", WORDS("answer"), "class C { }", GENREQ_REFUSED, "error: unsupported class at 0\n"},
    {"no command", WORDS("fly"), "", GENREQ_WRONG_WORDS, "usage: genreq ("},
    {"a protocol past the limit of rules", WORDS("answer\0--max-rules\0" "1"), "protocol P { } protocol Q: P { }", GENREQ_LIMIT, "error: more than 1 rules\n"},
};

int main(void) {
    static uint8_t out[1024];
    size_t k;
    for (k = 0; k < sizeof rows / sizeof *rows; k++) {
        const struct row *row = &rows[k];
        struct genreq_answer answer = genreq_run((const uint8_t *)row->words, row->words_length, (const uint8_t *)row->text, strlen(row->text),
                                                 out, sizeof out);
        size_t length = strlen(row->printed);
        if (answer.status != row->status)
            return printf("%s: the status is %d, and not %d\n", row->name, answer.status, row->status), 1;
        if (answer.count < length || memcmp(out, row->printed, length))
            return printf("%s: another line is printed\n", row->name), 1;
    }
    return 0;
}
