/* Asks genreq without starting a program for each question.
 *
 * With words it does what the program does with them, over the standard input. Without words it asks whether the elements of a collection's
 * slice are Equatable where its own are, and what is left of a where clause that says more than it has to.
 */
#include "genreq.h"

#include <stdio.h>
#include <stdlib.h>
#include <string.h>

static const char protocols[] = "protocol Equatable { }\n"
                                "protocol Sequence { associatedtype Element }\n"
                                "protocol Collection: Sequence {\n"
                                "  associatedtype SubSequence: Collection where SubSequence.Element == Element\n"
                                "}\n";

static const char follows[] = "func f<C: Collection>() where C.Element: Equatable\n"
                              "query f(C.SubSequence.Element : Equatable)\n";

static const char edited[] = "func f<C: Sequence & Collection>() where C.Element: Equatable, C.SubSequence.Element: Equatable\n"
                             "query f()\n";

struct bytes {
    uint8_t *first;
    size_t length;
};

/* At least this many bytes, and never a null pointer. */
static void *memory(void *block, size_t length) {
    block = realloc(block, length + 1);
    if (!block) {
        fputs("ask: no memory\n", stderr);
        exit(GENREQ_NO_MEMORY);
    }
    return block;
}

static void append(struct bytes *to, const void *more, size_t length) {
    to->first = (uint8_t *)memory(to->first, to->length + length);
    memcpy(to->first + to->length, more, length);
    to->length += length;
}

/* Prints what genreq answers, and gives its status. A buffer that has no room for all is made larger, and the call is made again. */
static int ask(const void *words, size_t words_length, const void *text, size_t text_length) {
    size_t room = 256;
    uint8_t *out = (uint8_t *)memory(NULL, room);
    struct genreq_answer answer = genreq_run((const uint8_t *)words, words_length, (const uint8_t *)text, text_length, out, room);
    while (answer.count > room) {
        room = answer.count;
        out = (uint8_t *)memory(out, room);
        answer = genreq_run((const uint8_t *)words, words_length, (const uint8_t *)text, text_length, out, room);
    }
    fwrite(out, 1, answer.count, stdout);
    free(out);
    return answer.status;
}

/* A question about the protocols. */
static int ask_of_protocols(const char *question) {
    struct bytes text = {NULL, 0};
    int status;
    append(&text, protocols, strlen(protocols));
    append(&text, question, strlen(question));
    status = ask("answer", 6, text.first, text.length);
    free(text.first);
    return status;
}

/* What the program does with these words. Each but the last goes with its zero byte. */
static int ask_as_program(int count, char **words) {
    static uint8_t piece[65536];
    struct bytes said = {NULL, 0}, text = {NULL, 0};
    size_t length;
    int status, k;
    for (k = 0; k < count; k++)
        append(&said, words[k], strlen(words[k]) + (k + 1 < count));
    append(&text, "", 0);
    while ((length = fread(piece, 1, sizeof piece, stdin)) > 0)
        append(&text, piece, length);
    status = ask(said.first, said.length, text.first, text.length);
    free(said.first);
    free(text.first);
    return status;
}

int main(int count, char **words) {
    if (count > 1)
        return ask_as_program(count - 1, words + 1);
    return ask_of_protocols(follows) | ask_of_protocols(edited);
}
