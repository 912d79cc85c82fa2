/* A supervisor in small: three roles tell what they do, one of them dies, and the answer says who goes back. */
#include "rcv.h"
#include <stdio.h>
#include <string.h>

enum { BUYER, SHOP, DEPOT };

static const char text[] =
    "module delivery;\n"
    "global protocol Delivery(role Buyer, role Shop, role Depot) {\n"
    "  order() from Buyer to Shop;\n"
    "  ship() from Shop to Depot;\n"
    "  parcel() from Depot to Buyer;\n"
    "  thanks() from Buyer to Depot;\n"
    "}\n";

/* Tells a line and prints its answer. */
static rcv_status tell(rcv_session *session, const char *line) {
    size_t count;
    uint8_t answer[1024];
    rcv_status status = rcv_tell(session, (const uint8_t *)line, strlen(line), &count);
    if (status == RCV_DONE) status = rcv_answer(session, answer, sizeof answer, &count);
    if (status == RCV_DONE) printf("%s\n  %.*s", line, (int)count, (const char *)answer);
    return status;
}

int main(void) {
    rcv_session session = RCV_CLOSED_SESSION;
    rcv_refusal why;
    if (rcv_open(&session, (const uint8_t *)text, sizeof text - 1, true, &why) != RCV_DONE) {
        fprintf(stderr, "refused %u, line %u\n", why.code, why.line);
        return 1;
    }
    uint64_t order = 0, ship = 0, stamp = 0;
    /* A Send is told before its message leaves, with which its stamp goes; a Recv before the role acts on the message. */
    bool is_legal = rcv_sent(&session, BUYER, 1, 0, 0, &order) == RCV_DONE
        && rcv_received(&session, SHOP, 1, 0, order, 0, &stamp) == RCV_DONE
        && rcv_sent(&session, SHOP, 2, 0, 0, &ship) == RCV_DONE
        && rcv_received(&session, DEPOT, 2, 0, ship, 0, &stamp) == RCV_DONE
        && rcv_saved(&session, SHOP, 2, 0) == RCV_DONE;
    is_legal = is_legal && tell(&session, "fail Depot") == RCV_DONE; /* back Depot 0 #1, and ship is to be delivered again */
    rcv_close(&session);
    return is_legal ? 0 : 1;
}
