/* Blocks in and out for the machines that ragel makes. A machine reads from `p` to `pe`; `out` and `put` append to the output. */
#include <stdlib.h>
#include <string.h>
#include <unistd.h>

static unsigned char in[65536], to[65536];
static size_t used;

static void flush(void) {
    size_t at = 0;
    while (at < used) {
        ssize_t n = write(1, to + at, used - at);
        if (n <= 0) exit(5);
        at += (size_t)n;
    }
    used = 0;
}

static inline void out(unsigned char b) {
    if (used == sizeof to) flush();
    to[used++] = b;
}

static void put(const unsigned char *s, size_t n) {
    if (used + n > sizeof to) flush();
    if (n > sizeof to) {
        while (n) {
            ssize_t k = write(1, s, n);
            if (k <= 0) exit(5);
            s += k;
            n -= (size_t)k;
        }
        return;
    }
    memcpy(to + used, s, n);
    used += n;
}

#define SAY(s) put((const unsigned char *)(s), sizeof(s) - 1)

/* A field that is held back. */
struct field { unsigned char *bytes; size_t length, room; };

static inline void hold(struct field *f, unsigned char b) {
    if (f->length == f->room) {
        f->room = f->room ? 2 * f->room : 256;
        f->bytes = realloc(f->bytes, f->room);
        if (!f->bytes) exit(7);
    }
    f->bytes[f->length++] = b;
}

static inline void say(struct field *f) {
    put(f->bytes, f->length);
    f->length = 0;
}

