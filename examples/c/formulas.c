/* Lays out many formulas with one font, whose metrics are read once, and prints the size of each. From the top:
       make library
       cc examples/c/formulas.c -Iinclude libmathlay.a -o formulas
       ./formulas samples/latin-modern-math.metrics samples/quadratic.json samples/matrix.json samples/tensor.json */
#include "mathlay.h"
#include <stdio.h>
#include <stdlib.h>

enum { MOST = 100 };

/* The bytes of a file, or nothing; the caller frees them. */
static uint8_t *bytes_of(const char *name, size_t *len) {
    FILE *file = fopen(name, "rb");
    if (!file || fseek(file, 0, SEEK_END)) return NULL;
    *len = (size_t)ftell(file);
    rewind(file);
    uint8_t *bytes = malloc(*len + 1);
    if (bytes && fread(bytes, 1, *len, file) != *len) *len = 0;
    fclose(file);
    return bytes;
}

int main(int count, char **words) {
    if (count < 3 || count - 2 > MOST) return fputs("usage: formulas METRICS TREE..\n", stderr), 2;
    size_t len = 0, refusal_len = 0;
    uint8_t *bytes = bytes_of(words[1], &len), refusal[MATHLAY_REFUSAL_ROOM];
    if (!bytes) return fputs("a file isn't there\n", stderr), 5;
    mathlay_metrics font = MATHLAY_CLOSED;
    uint32_t answer = mathlay_read(bytes, len, &font, refusal, sizeof refusal, &refusal_len);
    free(bytes);

    mathlay_session formulas[MOST] = {MATHLAY_CLOSED}; /* all of them: the others are zero too */
    for (int i = 0; i < count - 2 && answer == MATHLAY_DONE; i++) {
        uint8_t *tree = bytes_of(words[i + 2], &len);
        if (!tree) {
            fputs("a file isn't there\n", stderr);
            answer = 5;
            break;
        }
        answer = mathlay_start(&font, tree, len, &formulas[i], refusal, sizeof refusal, &refusal_len);
        free(tree);
    }
    mathlay_forget(&font); /* each session has a copy */
    if (answer != MATHLAY_DONE) fwrite(refusal, 1, refusal_len, stderr);

    for (int i = 0; i < count - 2; i++) {
        mathlay_frame frame = {0};
        if (mathlay_root(&formulas[i], &frame) == MATHLAY_DONE)
            printf("%s: %lld wide, %lld above the baseline, %lld below\n", words[i + 2],
                   (long long)frame.width, (long long)frame.ascent, (long long)frame.descent);
        mathlay_close(&formulas[i]);
    }
    return (int)answer;
}
