/* Opens and closes COUNT sessions of the same files, one after another: by the bytes of both, or by metrics that are read once.

       opens METRICS TREE COUNT [once] */
#include "mathlay.h"
#include <stdio.h>
#include <stdlib.h>

static uint8_t *bytes_of(const char *name, size_t *len) {
    FILE *file = fopen(name, "rb");
    if (!file || fseek(file, 0, SEEK_END)) exit(5);
    *len = (size_t)ftell(file);
    rewind(file);
    uint8_t *bytes = malloc(*len + 1);
    if (!bytes || fread(bytes, 1, *len, file) != *len) exit(5);
    fclose(file);
    return bytes;
}

int main(int count, char **words) {
    uint8_t refusal[MATHLAY_REFUSAL_ROOM];
    size_t metrics_len, tree_len, len;
    if (count != 4 && count != 5) return 2;
    uint8_t *metrics = bytes_of(words[1], &metrics_len), *tree = bytes_of(words[2], &tree_len);
    mathlay_metrics font = MATHLAY_CLOSED;
    mathlay_session session = MATHLAY_CLOSED;
    uint32_t answer = count == 5 ? mathlay_read(metrics, metrics_len, &font, refusal, sizeof refusal, &len) : MATHLAY_DONE;
    for (long left = strtol(words[3], NULL, 10); left > 0 && answer == MATHLAY_DONE; left--) {
        answer = count == 5 ? mathlay_start(&font, tree, tree_len, &session, refusal, sizeof refusal, &len)
                            : mathlay_open(metrics, metrics_len, tree, tree_len, &session, refusal, sizeof refusal, &len);
        mathlay_close(&session);
    }
    mathlay_forget(&font);
    free(metrics), free(tree);
    return (int)answer;
}
