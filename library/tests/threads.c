/* Four threads, each with sessions of its own. */
#include "lines.h"
#include <pthread.h>

static void *work(void *arg) {
    for (int k = 0; k < 50; k++) {
        rcv_session s = RCV_CLOSED_SESSION;
        rcv_refusal why;
        uint64_t stamp = 0;
        CHECK(opens(&s, delivery, k % 2, &why) == RCV_DONE);
        CHECK(rcv_sent(&s, BUYER, 1, k, RCV_NONE, &stamp) == RCV_DONE && stamp == 1);
        CHECK(rcv_received(&s, SHOP, 1, k, stamp, RCV_NONE, &stamp) == RCV_DONE && stamp == 2);
        CHECK(is_answered(&s, "kept", "kept Buyer 1 Shop 1 Depot 0\n"));
        rcv_close(&s);
    }
    return arg;
}

int main(void) {
    pthread_t threads[4];
    for (int i = 0; i < 4; i++) CHECK(!pthread_create(&threads[i], NULL, work, NULL));
    for (int i = 0; i < 4; i++) CHECK(!pthread_join(threads[i], NULL));
    return 0;
}
