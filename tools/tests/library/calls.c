/* Random calls of the library, refused ones among them, and what the header says of each: which answer there may be, and
   that a call that does nothing changes nothing. A wrong one ends it with a line on standard error and status 1; else it
   prints all answers that were given.

       calls SEED COUNT METRICS TREE..

   Compiled with -DFAIL and linked with -Wl,--wrap=malloc,--wrap=realloc, a third of the calls is refused some memory. */
#include "mathlay.h"
#include <stdio.h>
#include <stdlib.h>
#include <string.h>

#define WANT(x) ((x) ? (void)0 : wrong(__LINE__, #x))
enum { SESSIONS = 4, FONTS = 2, GUARD = 32, FILL = 0xA5, MOST_TREES = 64, LONGEST = 1 << 20 };

typedef struct { uint8_t *at; size_t len; } bytes;
typedef struct { mathlay_session handle; int is_open; bytes reply; } desk; /* with the reply that it has to have */
typedef struct { mathlay_metrics handle; bytes file; } font;               /* with the bytes that they were read of, or none */

static long call, told[36]; /* how often each answer was told */
static uint64_t state;
static bytes metrics, trees[MOST_TREES];
static int tree_count;

static void wrong(int line, const char *what) {
    fprintf(stderr, "call %ld, line %d: %s\n", call, line, what);
    exit(1);
}

static uint64_t draw(uint64_t below) { /* xorshift64 */
    state ^= state << 13, state ^= state >> 7, state ^= state << 17;
    return state % below;
}

static long fail_in = -1;
#ifdef FAIL
void *__real_malloc(size_t n);
void *__real_realloc(void *p, size_t n);
static int fails(void) { return fail_in >= 0 && fail_in-- == 0; }
void *__wrap_malloc(size_t n) { return fails() ? NULL : __real_malloc(n); }
void *__wrap_realloc(void *p, size_t n) { return fails() ? NULL : __real_realloc(p, n); }
static void arm(void) { fail_in = draw(3) ? -1 : (long)draw(1 << draw(10)); }
#else
static void arm(void) {}
#endif

/* What a call answered. No memory is refused any more. */
static uint32_t disarmed(uint32_t answer) {
    fail_in = -1;
    WANT(answer < 36);
    told[answer]++;
    return answer;
}

static uint8_t *filled(size_t len) {
    uint8_t *at = malloc(len + GUARD);
    if (!at) exit(2);
    return memset(at, FILL, len + GUARD);
}

static int is_filled(const uint8_t *at, size_t from, size_t to) {
    for (size_t i = from; i < to; i++) if (at[i] != FILL) return 0;
    return 1;
}

static bytes file_of(const char *name) {
    FILE *file = fopen(name, "rb");
    bytes all = {NULL, 0};
    if (!file || fseek(file, 0, SEEK_END)) exit(2);
    all.at = malloc((all.len = (size_t)ftell(file)) + 1);
    rewind(file);
    if (!all.at || fread(all.at, 1, all.len, file) != all.len) exit(2);
    fclose(file);
    return all;
}

/* The reply of a session that is open, by a buffer of just its length; its room is tried too short first. */
static bytes reply_of(desk *d) {
    size_t len = 77, again = 78;
    uint8_t none = FILL;
    uint32_t answer = mathlay_reply(&d->handle, &none, 0, &len);
    WANT(none == FILL && (answer == MATHLAY_SHORT ? len > 0 : answer == MATHLAY_DONE && len == 0));
    uint8_t *at = filled(len);
    if (len) {
        WANT(mathlay_reply(&d->handle, at, draw(len), &again) == MATHLAY_SHORT && again == len);
        WANT(is_filled(at, 0, len + GUARD));
    }
    WANT(mathlay_reply(&d->handle, at, len, &again) == MATHLAY_DONE && again == len);
    WANT(is_filled(at, len, len + GUARD));
    return (bytes){at, len};
}

static void has_reply(desk *d) {
    bytes now = reply_of(d);
    WANT(now.len == d->reply.len && !memcmp(now.at, d->reply.at, now.len));
    free(now.at);
}

static void take_reply(desk *d) {
    free(d->reply.at);
    d->reply = reply_of(d);
}

/* A file as it is, cut, with a byte that is another, or with none. */
static bytes spoilt(bytes file) {
    bytes copy = {malloc(file.len + 1), file.len};
    if (!copy.at) exit(2);
    memcpy(copy.at, file.at, file.len);
    switch (draw(6)) {
        case 0: copy.len = draw(file.len + 1); break;
        case 1: if (file.len) copy.at[draw(file.len)] = (uint8_t)draw(256); break;
        case 2: copy.len = 0; break;
    }
    return copy;
}

static int is_refused(uint32_t answer) {
    return answer == MATHLAY_METRICS || answer == MATHLAY_TREE || answer == MATHLAY_RANGE || answer == MATHLAY_MEMORY;
}

/* The line of a refusal has to be there, but for want of memory, with nothing written behind it; else nothing is written. */
static void has_line(uint32_t answer, const uint8_t *line, size_t room, size_t len) {
    if (is_refused(answer)) {
        WANT(len <= room && is_filled(line, len, room + GUARD));
        WANT(answer == MATHLAY_MEMORY ? len == 0 : len > 0 && line[len - 1] == '\n');
    } else WANT(len == 77 && is_filled(line, 0, room + GUARD));
}

/* A session is open now, or isn't since it was told why. */
static void is_opened(desk *d, uint32_t answer, void *was, size_t room) {
    if (answer == MATHLAY_DONE) {
        WANT(!d->is_open && d->handle.at);
        d->is_open = 1;
        take_reply(d);
        WANT(d->reply.len == 0);
        return;
    }
    WANT(d->handle.at == was);
    if (answer == MATHLAY_SHORT) WANT(room < MATHLAY_REFUSAL_ROOM);
    else if (answer == MATHLAY_OPEN) WANT(d->is_open);
    else WANT(answer == MATHLAY_NOT_OPEN || (!d->is_open && is_refused(answer)));
}

static void open_one(desk *d) {
    bytes font = draw(8) ? metrics : spoilt(metrics), tree = spoilt(trees[draw((uint64_t)tree_count)]);
    size_t room = draw(8) ? MATHLAY_REFUSAL_ROOM + draw(9) : draw(MATHLAY_REFUSAL_ROOM), len = 77;
    uint8_t *line = filled(room);
    void *was = d->handle.at;
    arm();
    uint32_t answer = disarmed(mathlay_open(font.at, font.len, tree.at, tree.len, &d->handle, line, room, &len));
    WANT(answer != MATHLAY_NOT_OPEN);
    has_line(answer, line, room, len);
    is_opened(d, answer, was, room);
    if (font.at != metrics.at) free(font.at);
    free(tree.at), free(line);
}

static void read_one(font *f) {
    bytes file = spoilt(metrics);
    size_t room = draw(8) ? MATHLAY_REFUSAL_ROOM + draw(9) : draw(MATHLAY_REFUSAL_ROOM), len = 77;
    uint8_t *line = filled(room);
    void *was = f->handle.at;
    arm();
    uint32_t answer = disarmed(mathlay_read(file.at, file.len, &f->handle, line, room, &len));
    has_line(answer, line, room, len);
    if (answer == MATHLAY_DONE) WANT(!f->file.at && f->handle.at), f->file = file;
    else {
        WANT(f->handle.at == was);
        if (answer == MATHLAY_SHORT) WANT(room < MATHLAY_REFUSAL_ROOM);
        else if (answer == MATHLAY_OPEN) WANT(f->file.at);
        else WANT(!f->file.at && (answer == MATHLAY_METRICS || answer == MATHLAY_MEMORY));
        free(file.at);
    }
    free(line);
}

static void forget_one(font *f) {
    mathlay_forget(&f->handle);
    WANT(!f->handle.at);
    free(f->file.at);
    f->file = (bytes){NULL, 0};
}

/* A session shows what another one shows that is opened over these files. */
static void shows_same(desk *d, bytes file, bytes tree) {
    desk other = {MATHLAY_CLOSED, 0, {NULL, 0}};
    uint8_t line[MATHLAY_REFUSAL_ROOM];
    size_t len;
    WANT(mathlay_show(&d->handle) == MATHLAY_DONE);
    take_reply(d);
    WANT(mathlay_open(file.at, file.len, tree.at, tree.len, &other.handle, line, sizeof line, &len) == MATHLAY_DONE);
    WANT(mathlay_show(&other.handle) == MATHLAY_DONE);
    other.reply = d->reply;
    has_reply(&other);
    mathlay_close(&other.handle);
}

/* The metrics stay as they are, whatever comes of it. */
static void start_one(desk *d, font *f) {
    bytes tree = spoilt(trees[draw((uint64_t)tree_count)]);
    size_t room = draw(8) ? MATHLAY_REFUSAL_ROOM + draw(9) : draw(MATHLAY_REFUSAL_ROOM), len = 77;
    uint8_t *line = filled(room);
    void *was = d->handle.at, *metrics_were = f->handle.at;
    arm();
    uint32_t answer = disarmed(mathlay_start(&f->handle, tree.at, tree.len, &d->handle, line, room, &len));
    WANT(f->handle.at == metrics_were && answer != MATHLAY_METRICS);
    WANT((answer == MATHLAY_NOT_OPEN) == !f->file.at);
    has_line(answer, line, room, len);
    is_opened(d, answer, was, room);
    if (answer == MATHLAY_DONE && !draw(4)) shows_same(d, f->file, tree);
    free(tree.at), free(line);
}

/* A line of a script: an edit of some element, a show, white space, or any bytes. */
static bytes line_of(void) {
    static const char *const forms[] = {
        "{\"op\":\"text\",\"node\":%d,\"text\":\"%d\"}", "{\"op\":\"remove\",\"node\":%d}", "{\"op\":\"show\"}", " \t",
        "{\"op\":\"undo\"}", "{\"op\":\"redo\"}",
        "{\"op\":\"attr\",\"node\":%d,\"name\":\"mathsize\",\"value\":\"%dem\"}", "{\"op\":\"none\"}",
        "{\"op\":\"insert\",\"node\":%d,\"index\":%d,\"element\":{\"name\":\"msqrt\",\"children\":[{\"name\":\"mi\",\"text\":\"x\"}]}}"};
    int form = (int)draw(12);
    bytes line = {NULL, 0};
    if (form < 9) {
        char text[256];
        line.len = (size_t)snprintf(text, sizeof text, forms[form], (int)draw(50), (int)draw(4));
        line.at = malloc(line.len + 1);
        if (line.at) memcpy(line.at, text, line.len);
    } else {
        line.len = form == 11 && !draw(10) ? LONGEST + 1 : draw(64);
        line.at = malloc(line.len + 1);
        if (line.at) for (size_t i = 0; i < line.len; i++) line.at[i] = (uint8_t)draw(256);
    }
    if (!line.at) exit(2);
    return line;
}

enum asks { LINE, SHOW, PAINT };

static void ask(desk *d, enum asks what) {
    bytes line = what == LINE ? line_of() : (bytes){NULL, 0};
    arm();
    uint32_t answer = disarmed(what == SHOW ? mathlay_show(&d->handle) : what == PAINT ? mathlay_paint(&d->handle)
                                                                                : mathlay_line(&d->handle, line.at, line.len));
    if (!d->is_open) WANT(answer == MATHLAY_NOT_OPEN);
    else if (answer == MATHLAY_DONE) WANT(line.len <= LONGEST), take_reply(d);
    else {
        WANT(answer == MATHLAY_MEMORY || (answer == MATHLAY_LINE_LONG && line.len > LONGEST));
        has_reply(d);
    }
    free(line.at);
}

/* What a session shows now. Its reply is that then. */
static bytes page_of(desk *d) {
    WANT(mathlay_show(&d->handle) == MATHLAY_DONE);
    take_reply(d);
    bytes page = {malloc(d->reply.len + 1), d->reply.len};
    if (!page.at) exit(2);
    memcpy(page.at, d->reply.at, page.len);
    return page;
}

/* A step through the history, and the way back. */
static void step(desk *d, int undoes) {
    bytes before = d->is_open && !draw(4) ? page_of(d) : (bytes){NULL, 0};
    arm();
    uint32_t answer = disarmed(undoes ? mathlay_undo(&d->handle) : mathlay_redo(&d->handle));
    if (!d->is_open) WANT(answer == MATHLAY_NOT_OPEN);
    else WANT(answer == MATHLAY_DONE || answer == MATHLAY_NOTHING || answer == MATHLAY_MEMORY), has_reply(d);
    if (before.at) {
        if (answer == MATHLAY_DONE) WANT((undoes ? mathlay_redo(&d->handle) : mathlay_undo(&d->handle)) == MATHLAY_DONE);
        bytes after = page_of(d);
        WANT(after.len == before.len && !memcmp(after.at, before.at, after.len));
        free(after.at);
    }
    free(before.at);
}

static void mark(desk *d) {
    uint32_t first = (uint32_t)draw(40), second = (uint32_t)draw(40), missing = 77;
    arm();
    uint32_t answer = disarmed(mathlay_select(&d->handle, first, second, &missing));
    WANT(answer == MATHLAY_NODE ? missing == first || missing == second : missing == 77);
    if (!d->is_open) WANT(answer == MATHLAY_NOT_OPEN);
    else if (answer == MATHLAY_DONE) take_reply(d);
    else WANT(answer == MATHLAY_NODE || answer == MATHLAY_MEMORY), has_reply(d);
}

static void tell(desk *d) {
    size_t room = draw(2) ? draw(d->reply.len + 1) : d->reply.len + draw(100), len = 77;
    uint8_t *at = filled(room);
    arm();
    uint32_t answer = disarmed(mathlay_reply(&d->handle, at, room, &len));
    if (!d->is_open) WANT(answer == MATHLAY_NOT_OPEN && len == 77 && is_filled(at, 0, room));
    else if (answer == MATHLAY_DONE) WANT(len == d->reply.len && len <= room && !memcmp(at, d->reply.at, len));
    else if (answer == MATHLAY_SHORT) WANT(len == d->reply.len && room < len && is_filled(at, 0, room));
    else WANT(answer == MATHLAY_MEMORY && len == 77 && is_filled(at, 0, room));
    WANT(is_filled(at, answer == MATHLAY_DONE ? len : room, room + GUARD));
    free(at);
}

static void measure(desk *d) {
    mathlay_frame frame, before;
    memset(&before, FILL, sizeof before);
    frame = before;
    uint32_t answer = mathlay_root(&d->handle, &frame);
    WANT(answer == (d->is_open ? MATHLAY_DONE : MATHLAY_NOT_OPEN));
    WANT(d->is_open || !memcmp(&frame, &before, sizeof frame));
}

static void hit(desk *d) {
    uint32_t element = 77;
    int64_t x = draw(4) ? (int64_t)draw(200000) : (int64_t)(draw(UINT64_MAX) << 1), y = (int64_t)draw(40000) - 20000;
    arm();
    uint32_t answer = disarmed(mathlay_hit(&d->handle, x, y, &element));
    if (!d->is_open) WANT(answer == MATHLAY_NOT_OPEN && element == 77);
    else WANT(answer == MATHLAY_DONE || (element == 77 && (answer == MATHLAY_NOTHING || answer == MATHLAY_MEMORY)));
    if (d->is_open) has_reply(d);
}

static void close_one(desk *d) {
    mathlay_close(&d->handle);
    WANT(!d->handle.at);
    d->is_open = 0;
    free(d->reply.at);
    d->reply = (bytes){NULL, 0};
}

int main(int count, char **words) {
    desk desks[SESSIONS] = {{MATHLAY_CLOSED, 0, {NULL, 0}}};
    font fonts[FONTS] = {{MATHLAY_CLOSED, {NULL, 0}}};
    if (count < 5 || count - 4 > MOST_TREES) return 2;
    state = strtoull(words[1], NULL, 10) * 2 + 1;
    metrics = file_of(words[3]);
    for (tree_count = 0; tree_count < count - 4; tree_count++) trees[tree_count] = file_of(words[4 + tree_count]);
    for (long calls = strtol(words[2], NULL, 10); call < calls; call++) {
        desk *d = &desks[draw(SESSIONS)], *other = &desks[draw(SESSIONS)];
        font *f = &fonts[draw(FONTS)];
        uint64_t what = draw(84);
        if (what >= 83) forget_one(f);
        else if (what >= 80) read_one(f);
        else if (what < 3 || (what < 13 && !d->is_open)) open_one(d);
        else if (what < 6 || (what < 20 && !d->is_open)) start_one(d, f);
        else if (what < 34) ask(d, LINE);
        else if (what < 40) ask(d, SHOW);
        else if (what >= 76) ask(d, PAINT);
        else if (what >= 72) mark(d);
        else if (what >= 64) step(d, what < 69);
        else if (what < 48) tell(d);
        else if (what < 54) measure(d);
        else if (what < 61) hit(d);
        else if (what < 62) close_one(d);
        else if (what < 63) close_one(d), close_one(d);
        else if (d != other) { /* a move: the old one isn't used before it is closed */
            close_one(other);
            *other = *d;
            *d = (desk){MATHLAY_CLOSED, 0, {NULL, 0}};
        }
    }
    for (int i = 0; i < SESSIONS; i++) close_one(&desks[i]);
    for (int i = 0; i < FONTS; i++) forget_one(&fonts[i]);
    for (int i = 0; i < tree_count; i++) free(trees[i].at);
    free(metrics.at);
    for (int i = 0; i < 36; i++) if (told[i]) printf("%d\n", i);
    return 0;
}
