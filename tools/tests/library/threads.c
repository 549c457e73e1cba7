/* A session on each thread, and each handed from thread to thread, ordered by start and join; they are started by these threads
   with the same metrics, under a lock. The threads have 1 MB of stack.

       threads METRICS TREE */
#include "mathlay.h"
#include <pthread.h>
#include <stdio.h>
#include <stdlib.h>
#include <string.h>

enum { THREADS = 4, EDITS = 10, STACK = 1 << 20 };
typedef struct { uint8_t *at; size_t len; } bytes;

static bytes file_of(const char *name) {
    FILE *file = fopen(name, "rb");
    bytes all = {NULL, 0};
    if (!file || fseek(file, 0, SEEK_END)) exit(2);
    all.at = malloc((all.len = (size_t)ftell(file)) + 1);
    rewind(file);
    if (!all.at || fread(all.at, 1, all.len, file) != all.len) exit(2);
    fclose(file);
    return all;
}

static bytes tree;
static mathlay_metrics font = MATHLAY_CLOSED;
static pthread_mutex_t lock = PTHREAD_MUTEX_INITIALIZER;

static void *begin(void *session) {
    uint8_t refusal[MATHLAY_REFUSAL_ROOM];
    size_t len = 0;
    pthread_mutex_lock(&lock);
    uint32_t answer = mathlay_start(&font, tree.at, tree.len, session, refusal, sizeof refusal, &len);
    pthread_mutex_unlock(&lock);
    return answer == MATHLAY_DONE ? NULL : session;
}

/* Edits, and shows the formula. */
static void *edit(void *session) {
    char line[64];
    for (int i = 0; i < EDITS; i++) {
        int len = snprintf(line, sizeof line, "{\"op\":\"text\",\"node\":2,\"text\":\"%d\"}", i);
        if (mathlay_line(session, (const uint8_t *)line, (size_t)len) != MATHLAY_DONE) return session;
    }
    return mathlay_show(session) == MATHLAY_DONE ? NULL : session;
}

static void *end(void *session) {
    mathlay_close(session);
    return NULL;
}

int main(int count, char **words) {
    if (count != 3) return 2;
    bytes metrics = file_of(words[1]);
    tree = file_of(words[2]);
    mathlay_session sessions[THREADS] = {MATHLAY_CLOSED};
    pthread_t threads[THREADS];
    pthread_attr_t small;
    static uint8_t refusal[MATHLAY_REFUSAL_ROOM], first[1 << 16], other[1 << 16];
    size_t len = 0, other_len = 0;
    void *wrong;
    if (pthread_attr_init(&small) || pthread_attr_setstacksize(&small, STACK)) return 2;
    if (mathlay_open(metrics.at, metrics.len, tree.at, tree.len, &sessions[0], refusal, sizeof refusal, &len)) return 3;
    if (mathlay_read(metrics.at, metrics.len, &font, refusal, sizeof refusal, &len)) return 3;
    for (int i = 1; i < THREADS; i++) pthread_create(&threads[i], &small, begin, &sessions[i]);
    for (int i = 1; i < THREADS; i++) if (pthread_join(threads[i], &wrong), wrong) return 3;
    mathlay_forget(&font);
    for (int round = 0; round < 2; round++) {
        for (int i = 0; i < THREADS; i++) pthread_create(&threads[i], &small, edit, &sessions[(i + round) % THREADS]);
        for (int i = 0; i < THREADS; i++) if (pthread_join(threads[i], &wrong), wrong) return 4;
    }
    if (mathlay_reply(&sessions[0], first, sizeof first, &len)) return 5;
    for (int i = 1; i < THREADS; i++)
        if (mathlay_reply(&sessions[i], other, sizeof other, &other_len) || other_len != len || memcmp(first, other, len)) return 6;
    for (int i = 0; i < THREADS; i++) pthread_create(&threads[i], &small, end, &sessions[i]);
    for (int i = 0; i < THREADS; i++) pthread_join(threads[i], NULL);
    pthread_attr_destroy(&small);
    free(metrics.at), free(tree.at);
    puts("threads ok");
    return 0;
}
