/* mathlay: layout of mathematics with proved boxes, as a library.

   A session lays out one formula and keeps it laid out under edits, of which the last 1,000 can be undone. Its lines and
   replies are those of `mathlay history 1000`: docs/FORMATS.md has them all. docs/EMBEDDING.md shows the calls by example.

   What a caller owes, and nobody checks:
   1. A session starts as MATHLAY_CLOSED, and so do metrics; then the calls alone write them. They are never copied, except
      as a move after which the old one isn't used.
   2. No pointer is null, even with a length of 0; each points to as many bytes as its length says, of which those that
      are read have a value; what a call writes overlaps no other argument.
   3. One call at a time on a session, and on metrics; a start is one on both. None from a signal handler, nor in the child
      that a process with threads has forked.
      Both may go from thread to thread, if a lock, a thread's start or its end orders the calls.
      Sessions share nothing, even if they were started with the same metrics: different ones may be used by different
      threads at the same time.
   4. `malloc`, `realloc` and `free` are those of one heap, which any thread may call, and whose blocks are aligned as the C
      library's are. */
#ifndef MATHLAY_H
#define MATHLAY_H

#include <stddef.h>
#include <stdint.h>

#ifdef __cplusplus
extern "C" {
#endif

/* A session, open or closed. What `at` points to is the library's own. */
typedef struct mathlay_session {
    void *at;
} mathlay_session;

/* The metrics of a font, read once for any number of sessions; or none, as long as they are closed. What `at` points to is the
   library's own. */
typedef struct mathlay_metrics {
    void *at;
} mathlay_metrics;

/* How both start: `mathlay_session session = MATHLAY_CLOSED;`. One in memory of the heap is started by
   `*session = (mathlay_session)MATHLAY_CLOSED;`. */
#define MATHLAY_CLOSED { NULL }

/* What a call answers. Up to 31 it is the status with which the program ends for the same cause. After any answer but
   MATHLAY_DONE the session, its last reply, what can be undone and redone, and metrics are as before. */
enum mathlay_answer {
    MATHLAY_DONE = 0,
    MATHLAY_METRICS = 3,   /* the metrics file is too long, or has a fault */
    MATHLAY_TREE = 4,      /* the tree file is too long, no JSON, or has a fault */
    MATHLAY_MEMORY = 7,    /* memory was refused */
    MATHLAY_RANGE = 8,     /* a size of the layout is out of range */
    MATHLAY_LINE_LONG = 9, /* the line has more than 1,048,576 bytes */
    MATHLAY_NODE = 10,     /* no element in flow has this number */
    MATHLAY_PAINT = 11,    /* more would be painted than may be */
    MATHLAY_OPEN = 32,     /* the session is open already, or the metrics are read already */
    MATHLAY_NOT_OPEN = 33, /* the session is closed, or the metrics are */
    MATHLAY_SHORT = 34,    /* the buffer is too short */
    MATHLAY_NOTHING = 35   /* no box holds the point, or there is nothing to undo or redo */
};

/* The least room for the line of a refusal. */
#define MATHLAY_REFUSAL_ROOM 160

/* The box of an element, in 1/1024 px. Ascents count upward from the baseline, descents downward. */
typedef struct mathlay_frame {
    int64_t width;
    int64_t ascent;
    int64_t descent;
    int64_t ink_ascent;
    int64_t ink_descent;
    int64_t italic; /* how far the ink leans out at the end */
    int64_t accent; /* where an accent is centred, from the start of the box */
} mathlay_frame;

/* Opens a closed session over the bytes of a metrics file and of a tree file, and lays the tree out. Files that give no
   session are answered by MATHLAY_METRICS, MATHLAY_TREE or MATHLAY_RANGE, and told by a line, as `metrics 4 13` with a line
   feed, at the front of `refusal`; `refusal_len` is told how long it is, and 0 after MATHLAY_MEMORY. After any other answer
   both are as before. With room for fewer than MATHLAY_REFUSAL_ROOM bytes the answer is MATHLAY_SHORT, whatever else is wrong;
   where the session is open it is MATHLAY_OPEN, whatever the files have. */
uint32_t mathlay_open(const uint8_t *metrics, size_t metrics_len, const uint8_t *tree, size_t tree_len,
                      mathlay_session *session, uint8_t *refusal, size_t refusal_room, size_t *refusal_len);

/* Reads the bytes of a metrics file into closed metrics. What is wrong with them is told as mathlay_open tells it, and so are
   a room that is too short, and metrics that are read already. */
uint32_t mathlay_read(const uint8_t *metrics, size_t metrics_len, mathlay_metrics *font,
                      uint8_t *refusal, size_t refusal_room, size_t *refusal_len);

/* Opens a closed session over the bytes of a tree file and a copy of metrics that were read before: with what mathlay_open
   answers to the bytes of both, and with just the session that it opens, unless memory is refused. The metrics stay as they
   are, whatever the answer is. Where they are closed, it is MATHLAY_NOT_OPEN, whatever else is wrong. */
uint32_t mathlay_start(mathlay_metrics *font, const uint8_t *tree, size_t tree_len, mathlay_session *session,
                       uint8_t *refusal, size_t refusal_room, size_t *refusal_len);

/* Frees metrics, if there are any. They are closed then, and may be read again. Sessions that were started with them stay. */
void mathlay_forget(mathlay_metrics *font);

/* Does what a line of a script asks for. It needs no line feed at its end, nor a zero byte. The reply is kept until the next
   line, show, picture or selection that is done. */
uint32_t mathlay_line(mathlay_session *session, const uint8_t *line, size_t line_len);

/* Undoes the last edit that wasn't undone, and makes the edit again that was undone last. Elements get back the numbers that
   they had. An edit that is made otherwise ends what can be redone. Where there is nothing to undo or redo, the answer is
   MATHLAY_NOTHING. The last reply stays. */
uint32_t mathlay_undo(mathlay_session *session);
uint32_t mathlay_redo(mathlay_session *session);

/* Keeps the lines of all boxes and marks as the reply, behind a line `shown`. */
uint32_t mathlay_show(mathlay_session *session);

/* Keeps a picture as the reply: the SVG of `mathlay paint`, in which a glyph stands by its name in the metrics file.
   MATHLAY_PAINT, where it would have more than 33,554,432 glyphs and rules. */
uint32_t mathlay_paint(mathlay_session *session);

/* Keeps the lines of the areas to mark from one element to another as the reply: `area X Y W H`, as `mathlay select` writes
   them. There may be none. Where no element in flow has one of the numbers, the answer is MATHLAY_NODE and `missing` is told the
   first that is missing; else `missing` isn't written. An element is in flow if it is laid out: an annotation isn't. */
uint32_t mathlay_select(mathlay_session *session, uint32_t first, uint32_t second, uint32_t *missing);

/* Copies the kept reply to the front of `out`, with no zero byte behind it, and tells its length in `len`. Where the room is
   too short nothing is written, the length is told in `len`, and the answer is MATHLAY_SHORT. With another answer both are as
   before. Until the first line, show, picture or selection the reply is empty. */
uint32_t mathlay_reply(mathlay_session *session, uint8_t *out, size_t out_room, size_t *len);

/* The box of the whole formula. `frame` is written by no other answer than MATHLAY_DONE. */
uint32_t mathlay_root(mathlay_session *session, mathlay_frame *frame);

/* The number of the element at a point, as box lines have it: of those whose boxes hold the point, the last of the deepest.
   A box holds its left and its upper edge, and not the others. The point is given in 1/1024 px, to the right and downward
   from where the baseline of the whole begins, as in the lines of boxes. `element` is written by no other answer than
   MATHLAY_DONE. */
uint32_t mathlay_hit(mathlay_session *session, int64_t x, int64_t y, uint32_t *element);

/* Ends the session, if it is open, and frees all that it has. It is closed then, and may be opened again. */
void mathlay_close(mathlay_session *session);

#ifdef __cplusplus
}
#endif
#endif
