/* Lays out the quadratic formula, edits it, and prints the replies and the box of the whole. From the top:
       make library
       cc examples/c/quadratic.c -Iinclude libmathlay.a -o q && ./q */
#include "mathlay.h"
#include <stdio.h>
#include <stdlib.h>
#include <string.h>

/* The bytes of a file, or nothing; the caller frees them. */
static uint8_t *bytes_of(const char *name, size_t *len) {
    FILE *file = fopen(name, "rb");
    if (!file || fseek(file, 0, SEEK_END)) return NULL;
    *len = (size_t)ftell(file);
    rewind(file);
    uint8_t *bytes = malloc(*len + 1);
    if (bytes && fread(bytes, 1, *len, file) != *len) *len = 0;
    fclose(file);
    return bytes;
}

/* Prints the reply to the last call. */
static uint32_t print_reply(mathlay_session *session) {
    uint8_t none;
    size_t len = 0;
    uint32_t answer = mathlay_reply(session, &none, 0, &len); /* how long it is */
    if (answer != MATHLAY_SHORT) return answer;                /* done, where it is empty */
    uint8_t *text = malloc(len);
    if (!text) return MATHLAY_MEMORY;
    answer = mathlay_reply(session, text, len, &len);
    if (answer == MATHLAY_DONE) fwrite(text, 1, len, stdout);
    free(text);
    return answer;
}

int main(void) {
    size_t metrics_len = 0, tree_len = 0, refusal_len = 0;
    uint8_t *metrics = bytes_of("samples/latin-modern-math.metrics", &metrics_len);
    uint8_t *tree = bytes_of("samples/quadratic.json", &tree_len), refusal[MATHLAY_REFUSAL_ROOM];
    if (!metrics || !tree) return fputs("run it at the top of the repository\n", stderr), 1;
    mathlay_session session = MATHLAY_CLOSED;
    uint32_t answer = mathlay_open(metrics, metrics_len, tree, tree_len, &session, refusal, sizeof refusal, &refusal_len);
    free(metrics); /* the session has what it needs */
    free(tree);
    if (answer != MATHLAY_DONE) return fwrite(refusal, 1, refusal_len, stderr), (int)answer;

    const char *lines[] = {"{\"op\":\"text\",\"node\":14,\"text\":\"44\"}", "{\"op\":\"remove\",\"node\":1}"};
    for (size_t i = 0; i < 2 && answer == MATHLAY_DONE; i++) {
        answer = mathlay_line(&session, (const uint8_t *)lines[i], strlen(lines[i]));
        if (answer == MATHLAY_DONE) answer = print_reply(&session);
    }
    if (answer == MATHLAY_DONE) answer = mathlay_show(&session);
    if (answer == MATHLAY_DONE) answer = print_reply(&session);
    mathlay_frame frame = {0};
    if (answer == MATHLAY_DONE) answer = mathlay_root(&session, &frame);
    if (answer == MATHLAY_DONE) printf("root %lld wide, %lld high\n", (long long)frame.width, (long long)frame.ascent);
    mathlay_close(&session);
    return (int)answer;
}
