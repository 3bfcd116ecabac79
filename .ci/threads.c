/* Two threads call genreq at the same time, over texts of their own: each call prints what the first call of its thread has printed. The two
 * texts are the files that are named. */
#include "genreq.h"

#include <pthread.h>
#include <stdio.h>
#include <string.h>

enum { ROOM = 1 << 16, CALLS = 2000 };

struct caller {
    uint8_t text[ROOM], first[ROOM], out[ROOM];
    size_t length;
    int differs;
};

static struct genreq_answer call(const struct caller *c, uint8_t *out) {
    return genreq_run((const uint8_t *)"signatures", 10, c->text, c->length, out, ROOM);
}

static void *calls(void *of) {
    struct caller *c = of;
    struct genreq_answer first = call(c, c->first);
    int k;
    c->differs = first.status != GENREQ_ANSWERED || first.count > ROOM;
    for (k = 0; k < CALLS && !c->differs; k++) {
        struct genreq_answer answer = call(c, c->out);
        c->differs = answer.status != first.status || answer.count != first.count || memcmp(c->out, c->first, first.count);
    }
    return NULL;
}

int main(int count, char **names) {
    static struct caller callers[2];
    pthread_t threads[2];
    int k;
    for (k = 0; k < 2; k++) {
        FILE *file = count == 3 ? fopen(names[1 + k], "rb") : NULL;
        if (!file)
            return puts("threads: two texts are wanted"), 1;
        callers[k].length = fread(callers[k].text, 1, ROOM, file);
        fclose(file);
    }
    for (k = 0; k < 2; k++)
        if (pthread_create(&threads[k], NULL, calls, &callers[k]))
            return puts("threads: a thread does not start"), 1;
    for (k = 0; k < 2; k++)
        pthread_join(threads[k], NULL);
    return callers[0].differs || callers[1].differs;
}
