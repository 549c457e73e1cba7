/* Writes a picture of a formula, as SVG, behind edits of it. From the top:
       make library
       cc examples/c/picture.c -Iinclude libmathlay.a -o picture
       ./picture samples/latin-modern-math.metrics samples/quadratic.json '{"op":"text","node":14,"text":"44"}' undo redo */
#include "mathlay.h"
#include <stdio.h>
#include <stdlib.h>
#include <string.h>

/* The bytes of a file, or nothing; the caller frees them. */
static uint8_t *bytes_of(const char *name, size_t *len) {
    FILE *file = fopen(name, "rb");
    if (!file || fseek(file, 0, SEEK_END)) return NULL;
    *len = (size_t)ftell(file);
    rewind(file);
    uint8_t *bytes = malloc(*len + 1);
    if (bytes && fread(bytes, 1, *len, file) != *len) *len = 0;
    fclose(file);
    return bytes;
}

/* Writes the last reply. */
static uint32_t write_reply(mathlay_session *session, FILE *out) {
    uint8_t none, *text = NULL;
    size_t len = 0;
    uint32_t answer = mathlay_reply(session, &none, 0, &len);
    if (answer == MATHLAY_SHORT && (text = malloc(len))) answer = mathlay_reply(session, text, len, &len);
    if (answer == MATHLAY_DONE && len) fwrite(text, 1, len, out);
    free(text);
    return answer;
}

int main(int count, char **words) {
    if (count < 3) return fputs("usage: picture METRICS TREE [undo | redo | LINE]..\n", stderr), 2;
    size_t metrics_len = 0, tree_len = 0, refusal_len = 0;
    uint8_t *metrics = bytes_of(words[1], &metrics_len), *tree = bytes_of(words[2], &tree_len);
    if (!metrics || !tree) return free(metrics), free(tree), fputs("a file isn't there\n", stderr), 5;
    uint8_t refusal[MATHLAY_REFUSAL_ROOM];
    mathlay_session session = MATHLAY_CLOSED;
    uint32_t answer = mathlay_open(metrics, metrics_len, tree, tree_len, &session, refusal, sizeof refusal, &refusal_len);
    free(metrics), free(tree);
    if (answer != MATHLAY_DONE) return fwrite(refusal, 1, refusal_len, stderr), (int)answer;
    for (int i = 3; i < count && answer == MATHLAY_DONE; i++) {
        if (!strcmp(words[i], "undo")) answer = mathlay_undo(&session);
        else if (!strcmp(words[i], "redo")) answer = mathlay_redo(&session);
        else if ((answer = mathlay_line(&session, (const uint8_t *)words[i], strlen(words[i]))) == MATHLAY_DONE)
            answer = write_reply(&session, stderr);
        if (answer == MATHLAY_NOTHING) fputs("nothing\n", stderr), answer = MATHLAY_DONE;
    }
    if (answer == MATHLAY_DONE) answer = mathlay_paint(&session);
    if (answer == MATHLAY_DONE) answer = write_reply(&session, stdout);
    mathlay_close(&session);
    return (int)answer;
}
