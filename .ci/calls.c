/* Calls genreq with words over a text, the standard input: so often as the second argument says, and with each of its allocations refused. Linked
 * with --wrap for malloc, realloc and free, so that the blocks that are not given back are counted. */
#include "genreq.h"

#include <stdio.h>
#include <stdlib.h>
#include <string.h>

void *__real_malloc(size_t length);
void *__real_realloc(void *block, size_t length);
void __real_free(void *block);

static long blocks;        /* how many are not given back */
static long wanted;        /* how often a call has asked for memory */
static long refused = -1;  /* the number, from 0, of the time at which it gets none, and none from then on */

static int is_refused(void) { return refused >= 0 && wanted++ >= refused; }

void *__wrap_malloc(size_t length) {
    void *block = is_refused() ? NULL : __real_malloc(length);
    blocks += block != NULL;
    return block;
}

void *__wrap_realloc(void *block, size_t length) {
    void *moved = is_refused() ? NULL : __real_realloc(block, length);
    blocks += moved && !block;
    return moved;
}

void __wrap_free(void *block) {
    blocks -= block != NULL;
    __real_free(block);
}

static uint8_t words[64], text[1 << 16], out[1 << 16], answered[1 << 16];
static size_t words_length, length;

/* The words that stand here with a space between two. */
static int take_words(const char *spaced) {
    words_length = strlen(spaced);
    if (words_length > sizeof words)
        return 0;
    for (length = 0; length < words_length; length++)
        words[length] = spaced[length] == ' ' ? 0 : (uint8_t)spaced[length];
    return 1;
}

static struct genreq_answer call(void) {
    return genreq_run(words, words_length, text, length, out, sizeof out);
}

int main(int count, char **arguments) {
    static const char line[] = "error: out of memory\n";
    struct genreq_answer answer, whole;
    long k;
    if (count != 3 || !take_words(arguments[1]))
        return 2;
    length = fread(text, 1, sizeof text, stdin);
    blocks = 0;
    whole = call();
    memcpy(answered, out, sizeof out);
    for (k = 1; k < atol(arguments[2]); k++)
        if (call().status != GENREQ_ANSWERED)
            return puts("a call is not answered"), 1;
    if (whole.status != GENREQ_ANSWERED)
        return puts("the first call is not answered"), 1;
    if (blocks)
        return printf("%ld blocks are not given back\n", blocks), 1;
    do {
        refused++;
        wanted = 0;
        answer = call();
        if (answer.status == GENREQ_NO_MEMORY && (answer.count != sizeof line - 1 || memcmp(out, line, answer.count)))
            return puts("without memory another line is printed"), 1;
        if (answer.status != GENREQ_NO_MEMORY
            && (answer.status != GENREQ_ANSWERED || answer.count != whole.count || memcmp(out, answered, whole.count)))
            return printf("with the allocation %ld refused the status is %d\n", refused, answer.status), 1;
        if (blocks)
            return printf("%ld blocks are not given back where an allocation is refused\n", blocks), 1;
    } while (wanted > refused);
    return answer.status != GENREQ_ANSWERED;
}
