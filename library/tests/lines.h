/* What the tests share: asserts that always count, and lines told as text. */
#ifndef LINES_H
#define LINES_H
#include "rcv.h"
#include <stdio.h>
#include <stdlib.h>
#include <string.h>

#define CHECK(it) ((it) ? (void)0 : (fprintf(stderr, "%s:%d: %s\n", __FILE__, __LINE__, #it), exit(1)))

static const char *const delivery =
    "module delivery;\n"
    "global protocol Delivery(role Buyer, role Shop, role Depot) {\n"
    "  order() from Buyer to Shop;\n"
    "  ship() from Shop to Depot;\n"
    "  parcel() from Depot to Buyer;\n"
    "  thanks() from Buyer to Depot;\n"
    "}\n"
    "%% plan\n"
    "every Depot 10\n";
enum { BUYER, SHOP, DEPOT };

static inline const uint8_t *bytes(const char *text) {
    return (const uint8_t *)text;
}

static inline rcv_status opens(rcv_session *session, const char *text, bool told, rcv_refusal *why) {
    return rcv_open(session, bytes(text), strlen(text), told, why);
}

/* Whether the line is answered by this, to the byte. */
static inline bool is_answered(rcv_session *session, const char *line, const char *answer) {
    uint8_t out[4096];
    size_t count = 0, again = 0;
    if (rcv_tell(session, bytes(line), strlen(line), &count) != RCV_DONE) return false;
    if (rcv_answer(session, out, sizeof out, &again) != RCV_DONE || again != count) return false;
    if (count == strlen(answer) && !memcmp(out, answer, count)) return true;
    fprintf(stderr, "%s\nwas answered: %.*s", line, (int)count, (const char *)out);
    return false;
}
#endif
