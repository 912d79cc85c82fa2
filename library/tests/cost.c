/* What a million events cost. */
#include "lines.h"
#include <time.h>

static const char *const loop =
    "module m;\nglobal protocol Loop(role A, role B) {\n  rec X { ping() from A to B; pong() from B to A; continue X; }\n}\n";

/* Of the processor, so that other work on the machine doesn't count. */
static double seconds(void) {
    return (double)clock() / CLOCKS_PER_SEC;
}

int main(void) {
    for (int told = 0; told < 2; told++) {
        rcv_session s = RCV_CLOSED_SESSION;
        rcv_refusal why;
        uint64_t stamp = 0;
        double start = seconds();
        CHECK(opens(&s, loop, told, &why) == RCV_DONE);
        double open = seconds();
        for (int i = 0; i < 250000; i++) {
            CHECK(rcv_sent(&s, 0, 1, i, RCV_NONE, &stamp) == RCV_DONE);
            CHECK(rcv_received(&s, 1, 1, i, stamp, RCV_NONE, &stamp) == RCV_DONE);
            CHECK(rcv_sent(&s, 1, 2, i, RCV_NONE, &stamp) == RCV_DONE);
            CHECK(rcv_received(&s, 0, 2, i, stamp, RCV_NONE, &stamp) == RCV_DONE);
        }
        double end = seconds();
        CHECK(is_answered(&s, "kept", "kept A 500000 B 500000\n"));
        printf("%s: opened in %.0f us, %.3f us an event of a million\n", told ? "nothing saved" : "all saved", (open - start) * 1e6, end - open);
        rcv_close(&s);
    }
    return 0;
}
