/* The N-th allocation is refused, for each N from 0 on, until a whole session goes through. (glibc alone lets a program
 * have malloc of its own in this way.) */
#include "lines.h"

#ifndef __GLIBC__
int main(void) {
    puts("no glibc here: nothing is refused");
    return 0;
}
#else
extern void *__libc_malloc(size_t);
extern void *__libc_realloc(void *, size_t);
static long left = -1, refused;

static bool refuses(void) {
    if (left < 0) return false;
    if (left-- > 0) return false;
    left = -1; /* the one alone */
    refused++;
    return true;
}

void *malloc(size_t count) {
    return refuses() ? NULL : __libc_malloc(count);
}

void *realloc(void *at, size_t count) {
    return refuses() ? NULL : __libc_realloc(at, count);
}

static const char *const loop =
    "module m;\nglobal protocol Loop(role A, role B) {\n  rec X { ping() from A to B; pong() from B to A; continue X; }\n}\n";

/* What no further memory is wanted for: how many events each role keeps. */
static void keeps(rcv_session *s, unsigned each) {
    char line[64];
    snprintf(line, sizeof line, "kept A %u B %u\n", each, each);
    CHECK(is_answered(s, "kept", line));
}

int main(void) {
    long n = 0, opening = 0, telling = 0, failing = 0, others = 0;
    for (;; n++) {
        rcv_session s = RCV_CLOSED_SESSION;
        rcv_refusal why;
        uint64_t stamp;
        size_t count;
        unsigned rounds = 0;
        refused = 0;
        left = n;
        rcv_status status = opens(&s, loop, true, &why);
        if (status != RCV_DONE) {
            CHECK(status == RCV_MEMORY && !s.is_open && refused);
            left = -1;
            opening++;
            continue;
        }
        for (; rounds < 1500; rounds++) {
            const struct { uint8_t got, role; uint16_t point; } each[4] = {{0, 0, 1}, {1, 1, 1}, {0, 1, 2}, {1, 0, 2}};
            for (int i = 0; i < 4; i++)
                for (;;) {
                    status = each[i].got ? rcv_received(&s, each[i].role, each[i].point, 0, RCV_NONE, RCV_NONE, &stamp)
                                         : rcv_sent(&s, each[i].role, each[i].point, 0, RCV_NONE, &stamp);
                    if (status == RCV_DONE) break;
                    CHECK(status == RCV_MEMORY && refused); /* and it can be told again */
                    telling++;
                }
        }
        while ((status = rcv_saved(&s, 0, 2, RCV_NONE)) != RCV_DONE) {
            CHECK(status == RCV_MEMORY && refused);
            others++;
        }
        status = rcv_tell(&s, bytes("fail B=7"), 8, &count);
        if (status == RCV_MEMORY) {
            CHECK(refused && !s.is_open);
            others++;
            continue;
        }
        CHECK(status == RCV_DONE);
        uint8_t out[256] = {0};
        CHECK(rcv_answer(&s, out, sizeof out - 1, &count) == RCV_DONE);
        if (!memcmp(out, "memory\n", 7)) {
            CHECK(refused);
            failing++;
            rcv_close(&s);
            continue;
        }
        CHECK(!memcmp(out, "done undone 5986: A 7 B 7 +2\n", 29));
        bool all = !refused;
        left = -1;
        keeps(&s, 7);
        rcv_close(&s);
        if (all) break;
    }
    printf("%ld refused: %ld at opening, %ld at events, %ld in answers to a failure, %ld others\n", n, opening, telling, failing, others);
    return 0;
}
#endif
