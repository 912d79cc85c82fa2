/* The session of docs/GUIDE.md, told as lines, and told as numbers. */
#include "lines.h"
#include <stddef.h>

_Static_assert(sizeof(rcv_session) == 2 * sizeof(void *), "rcv_session");
_Static_assert(offsetof(rcv_session, is_open) == sizeof(void *), "rcv_session");
_Static_assert(sizeof(rcv_refusal) == 72, "rcv_refusal");
_Static_assert(offsetof(rcv_refusal, line) == 0 && offsetof(rcv_refusal, number) == 4, "rcv_refusal");
_Static_assert(offsetof(rcv_refusal, code) == 6 && offsetof(rcv_refusal, length) == 7, "rcv_refusal");
_Static_assert(offsetof(rcv_refusal, role) == 8, "rcv_refusal");
_Static_assert(sizeof(rcv_status) == 1, "rcv_status");

static const char *const failure =
    "done undone 3: Buyer 1 Depot 0 +3\n"
    "back Buyer 1 #1\n"
    "back Depot 0 #1\n"
    "flight Shop Depot 2 ship 0 @3\n";
static const char *const end =
    "end +4\n"
    "role Buyer kept 1 raw 2 waits\n"
    "role Shop kept 2 raw 2 done\n"
    "role Depot kept 0 raw 2 waits\n"
    "open\n";

static void by_lines(void) {
    rcv_session s = RCV_CLOSED_SESSION;
    rcv_refusal why;
    CHECK(opens(&s, delivery, false, &why) == RCV_DONE && s.is_open);
    CHECK(is_answered(&s, "send Buyer 1 order 0", "done @1\n"));
    CHECK(is_answered(&s, "recv Shop 1 order 0 <1", "done @2 <1\n"));
    CHECK(is_answered(&s, "send Shop 2 ship 0", "done @3\n"));
    CHECK(is_answered(&s, "recv Depot 2 ship 0 <3", "done @4 <3\n"));
    CHECK(is_answered(&s, "send Depot 3 parcel 0", "done @5\n"));
    CHECK(is_answered(&s, "recv Buyer 3 parcel 0 <5", "done @6 <5\n"));
    CHECK(is_answered(&s, "fail Depot", failure));
    CHECK(is_answered(&s, "next Depot", "next Depot receives 2\n"));
    CHECK(is_answered(&s, "send Buyer 4 thanks 0 #0", "stale incarnation 1\n"));
    CHECK(is_answered(&s, "end", end));
    rcv_close(&s);
    CHECK(!s.is_open && !s.hidden);
}

static void by_numbers(void) {
    rcv_session s = RCV_CLOSED_SESSION;
    rcv_refusal why;
    uint64_t order = 0, ship = 0, parcel = 0, stamp = 0;
    CHECK(opens(&s, delivery, false, &why) == RCV_DONE);
    CHECK(rcv_received(&s, SHOP, 1, 0, RCV_NONE, RCV_NONE, &stamp) == RCV_ILLEGAL && stamp == 0); /* nothing was sent */
    CHECK(rcv_sent(&s, BUYER, 1, 7, RCV_NONE, &order) == RCV_DONE && order == 1);
    CHECK(rcv_received(&s, SHOP, 1, 8, order, RCV_NONE, &stamp) == RCV_ILLEGAL); /* another value */
    CHECK(rcv_received(&s, SHOP, 1, 7, order, 0, &stamp) == RCV_DONE && stamp == 2);
    CHECK(rcv_sent(&s, DEPOT, 3, 0, RCV_NONE, &parcel) == RCV_ILLEGAL && parcel == 0); /* it has to receive first */
    CHECK(rcv_sent(&s, SHOP, 2, 0, RCV_NONE, &ship) == RCV_DONE && ship == 3);
    CHECK(rcv_received(&s, DEPOT, 2, 0, ship, RCV_NONE, &stamp) == RCV_DONE && stamp == 4);
    CHECK(rcv_received(&s, DEPOT, 2, 0, ship, RCV_NONE, &stamp) == RCV_STALE && stamp == 4); /* it came twice */
    CHECK(rcv_sent(&s, DEPOT, 3, 0, RCV_NONE, &parcel) == RCV_DONE && parcel == 5);
    CHECK(rcv_received(&s, BUYER, 3, 0, parcel, RCV_NONE, &stamp) == RCV_DONE && stamp == 6);
    CHECK(is_answered(&s, "fail Depot", failure));
    CHECK(rcv_sent(&s, BUYER, 4, 0, 0, &stamp) == RCV_STALE);   /* told before the Buyer heard that it goes back */
    CHECK(rcv_sent(&s, BUYER, 4, 0, 2, &stamp) == RCV_ILLEGAL); /* no such incarnation yet */
    CHECK(is_answered(&s, "next Depot", "next Depot receives 2\n"));
    CHECK(rcv_received(&s, DEPOT, 2, 0, ship, 1, &stamp) == RCV_DONE); /* it is delivered again */
    CHECK(rcv_saved(&s, DEPOT, 2, 1) == RCV_ILLEGAL);                  /* it made one event */
    CHECK(rcv_saved(&s, DEPOT, 1, 1) == RCV_DONE);
    CHECK(rcv_saved(&s, DEPOT, 1, 0) == RCV_STALE);
    CHECK(is_answered(&s, "fail Depot", "done undone 0: Depot 1 +1\nback Depot 1 #2\n"));
    CHECK(is_answered(&s, "kept", "kept Buyer 1 Shop 2 Depot 1\n"));
    rcv_close(&s);
}

static void by_told(void) {
    rcv_session s = RCV_CLOSED_SESSION;
    rcv_refusal why;
    uint64_t stamp;
    CHECK(opens(&s, delivery, true, &why) == RCV_DONE);
    CHECK(rcv_sent(&s, BUYER, 1, 0, RCV_NONE, &stamp) == RCV_DONE);
    CHECK(is_answered(&s, "fail Buyer", "done undone 1: Buyer 0 Shop 0 Depot 0 +1\nback Buyer 0 #1\n"));
    rcv_close(&s);
}

int main(void) {
    CHECK(rcv_version() == RCV_VERSION);
    by_lines();
    by_numbers();
    by_told();
    return 0;
}
