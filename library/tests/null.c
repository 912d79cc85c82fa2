/* Null in place of each pointer in turn. */
#include "lines.h"

int main(void) {
    rcv_session s = RCV_CLOSED_SESSION;
    rcv_refusal why;
    uint64_t stamp;
    size_t count;
    uint8_t out[1];
    const uint8_t *text = bytes(delivery);
    CHECK(rcv_check(NULL, 0, &why) == RCV_NULL && rcv_check(text, 1, NULL) == RCV_NULL);
    CHECK(rcv_open(NULL, text, 1, false, &why) == RCV_NULL);
    CHECK(rcv_open(&s, NULL, 0, false, &why) == RCV_NULL && rcv_open(&s, text, 1, false, NULL) == RCV_NULL && !s.is_open);
    rcv_close(NULL);
    CHECK(rcv_sent(NULL, 0, 1, 0, RCV_NONE, &stamp) == RCV_NULL && rcv_sent(&s, 0, 1, 0, RCV_NONE, NULL) == RCV_NULL);
    CHECK(rcv_received(NULL, 0, 1, 0, RCV_NONE, RCV_NONE, &stamp) == RCV_NULL);
    CHECK(rcv_received(&s, 0, 1, 0, RCV_NONE, RCV_NONE, NULL) == RCV_NULL && rcv_saved(NULL, 0, 0, RCV_NONE) == RCV_NULL);
    CHECK(rcv_tell(NULL, text, 1, &count) == RCV_NULL && rcv_tell(&s, NULL, 0, &count) == RCV_NULL);
    CHECK(rcv_tell(&s, text, 1, NULL) == RCV_NULL);
    CHECK(rcv_answer(NULL, out, 1, &count) == RCV_NULL && rcv_answer(&s, NULL, 0, &count) == RCV_NULL);
    CHECK(rcv_answer(&s, out, 1, NULL) == RCV_NULL);
    return 0;
}
