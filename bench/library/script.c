/* Answers a script by the library, as `mathlay edit METRICS TREE SCRIPT` does, line by line.

       script METRICS TREE SCRIPT */
#include "mathlay.h"
#include <stdio.h>
#include <stdlib.h>
#include <string.h>

static uint8_t *bytes_of(const char *name, size_t *len) {
    FILE *file = fopen(name, "rb");
    if (!file || fseek(file, 0, SEEK_END)) exit(5);
    *len = (size_t)ftell(file);
    rewind(file);
    uint8_t *bytes = malloc(*len + 1);
    if (!bytes || fread(bytes, 1, *len, file) != *len) exit(5);
    fclose(file);
    return bytes;
}

int main(int count, char **words) {
    static uint8_t reply[1 << 22];
    uint8_t refusal[MATHLAY_REFUSAL_ROOM];
    size_t metrics_len, tree_len, script_len, len;
    if (count != 4) return 2;
    uint8_t *metrics = bytes_of(words[1], &metrics_len), *tree = bytes_of(words[2], &tree_len);
    uint8_t *script = bytes_of(words[3], &script_len), *end = script + script_len;
    mathlay_session session = MATHLAY_CLOSED;
    uint32_t answer = mathlay_open(metrics, metrics_len, tree, tree_len, &session, refusal, sizeof refusal, &len);
    for (uint8_t *line = script, *next; !answer && line < end; line = next + 1) {
        next = memchr(line, '\n', (size_t)(end - line));
        if (!next) next = end;
        answer = mathlay_line(&session, line, (size_t)(next - line));
        if (!answer) answer = mathlay_reply(&session, reply, sizeof reply, &len);
        if (!answer) fwrite(reply, 1, len, stdout);
    }
    mathlay_close(&session);
    free(metrics), free(tree), free(script);
    return (int)answer;
}
