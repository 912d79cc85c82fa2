/* Wrong use that has an answer. */
#include "lines.h"

#define MOST 1048576

static const char *const ping = "module ping;\nglobal protocol Ping(role A, role B) {\n  ping() from A to B;\n  pong() from B to A;\n}\n";

static bool is_same(const rcv_refusal *one, const rcv_refusal *other) {
    return !memcmp(one, other, sizeof *one);
}

static void texts(void) {
    rcv_refusal why, before;
    memset(&before, 'x', sizeof before);
    why = before;
    CHECK(rcv_check(bytes(ping), strlen(ping), &why) == RCV_DONE && is_same(&why, &before));
    CHECK(rcv_check(bytes(""), 0, &why) == RCV_REFUSED && why.code == 11 && why.line == 1 && why.length == 0);
    uint8_t *big = calloc(1, MOST + 1);
    why = before;
    CHECK(rcv_check(big, MOST + 1, &why) == RCV_LONG && is_same(&why, &before));
    memset(big, ' ', MOST);
    CHECK(rcv_check(big, MOST, &why) == RCV_REFUSED && why.code == 11 && why.line == 1);
    for (size_t i = 0; i < MOST; i++) big[i] = (uint8_t)((uint32_t)i * 2654435761u >> 24);
    CHECK(rcv_check(big, MOST, &why) == RCV_REFUSED && why.code == 10);
    free(big);
    const char *mixed = "module m;\nglobal protocol M(role Ann, role Bob) {\n  choice at Ann { a() from Ann to Bob; } or { b() from Bob to Ann; }\n}\n";
    CHECK(rcv_check(bytes(mixed), strlen(mixed), &why) == RCV_REFUSED && why.line == 0 && why.code == 20);
    CHECK(why.length == 3 && !memcmp(why.role, "Ann", 3) && why.number == 2);
}

static void closed(rcv_session *s) {
    uint64_t stamp = 77;
    size_t count = 78;
    uint8_t out[2] = {1, 2};
    CHECK(!s->is_open && !s->hidden);
    CHECK(rcv_sent(s, 0, 1, 0, RCV_NONE, &stamp) == RCV_CLOSED && stamp == 77);
    CHECK(rcv_received(s, 0, 1, 0, RCV_NONE, RCV_NONE, &stamp) == RCV_CLOSED && stamp == 77);
    CHECK(rcv_saved(s, 0, 0, RCV_NONE) == RCV_CLOSED);
    CHECK(rcv_tell(s, bytes("kept"), 4, &count) == RCV_CLOSED && count == 78);
    CHECK(rcv_answer(s, out, 2, &count) == RCV_CLOSED && count == 78 && out[0] == 1 && out[1] == 2);
    rcv_close(s);
    CHECK(!s->is_open && !s->hidden);
}

static void numbers(rcv_session *s) {
    uint64_t stamp = 77;
    for (int role = 0; role < 256; role++)
        for (int point = 0; point < 65536; point += point < 5 || point > 65530 ? 1 : 997) {
            bool is_there = role < 2 && 1 <= point && point <= 2;
            if (role == 0 && point == 1) continue;
            CHECK(rcv_sent(s, (uint8_t)role, (uint16_t)point, INT64_MIN, RCV_NONE, &stamp) == (is_there ? RCV_ILLEGAL : RCV_RANGE));
            CHECK(rcv_received(s, (uint8_t)role, (uint16_t)point, INT64_MAX, RCV_NONE, RCV_NONE, &stamp) == (is_there ? RCV_ILLEGAL : RCV_RANGE));
            if (!point) CHECK(rcv_saved(s, (uint8_t)role, 1, RCV_NONE) == (role < 2 ? RCV_ILLEGAL : RCV_RANGE));
        }
    CHECK(stamp == 77);
    CHECK(rcv_saved(s, 0, UINT64_MAX, RCV_NONE) == RCV_ILLEGAL);
    CHECK(rcv_sent(s, 0, 1, INT64_MIN, UINT64_MAX - 1, &stamp) == RCV_ILLEGAL && stamp == 77);
    CHECK(rcv_sent(s, 0, 1, INT64_MIN, RCV_NONE, &stamp) == RCV_DONE && stamp == 1);
    CHECK(rcv_received(s, 1, 1, INT64_MIN + 1, RCV_NONE, RCV_NONE, &stamp) == RCV_ILLEGAL);
    CHECK(rcv_received(s, 1, 1, INT64_MIN, UINT64_MAX - 1, RCV_NONE, &stamp) == RCV_ILLEGAL);
    CHECK(rcv_received(s, 1, 1, INT64_MIN, 0, RCV_NONE, &stamp) == RCV_STALE && stamp == 1);
    CHECK(rcv_received(s, 1, 1, INT64_MIN, 1, RCV_NONE, &stamp) == RCV_DONE && stamp == 2);
}

static void lines(rcv_session *s) {
    uint8_t out[8];
    size_t count = 0;
    memset(out, 'x', sizeof out);
    CHECK(rcv_tell(s, bytes("kept"), 4, &count) == RCV_DONE && count == strlen("kept A 1 B 1\n"));
    CHECK(rcv_answer(s, out, 0, &count) == RCV_SHORT && count == 13 && out[0] == 'x');
    CHECK(rcv_answer(s, out, 8, &count) == RCV_SHORT && count == 13 && out[0] == 'x' && out[7] == 'x');
    uint8_t whole[14];
    memset(whole, 'x', sizeof whole);
    CHECK(rcv_answer(s, whole, 14, &count) == RCV_DONE && !memcmp(whole, "kept A 1 B 1\nx", 14));
    CHECK(is_answered(s, "", "wrong 1 line\n"));
    CHECK(is_answered(s, "kept\n", "wrong 1 line\n"));
    CHECK(is_answered(s, "send C 1 ping 0", "wrong 2 role\n"));
    CHECK(is_answered(s, "send A 65535 ping 0", "wrong 3 point\n"));
    uint8_t *text = malloc(2049);
    memset(text, 'k', 2049);
    CHECK(rcv_tell(s, text, 2049, &count) == RCV_DONE && rcv_answer(s, whole, 14, &count) == RCV_DONE);
    CHECK(count == 11 && !memcmp(whole, "wrong long\n", 11));
    CHECK(rcv_tell(s, text, 2048, &count) == RCV_DONE && rcv_answer(s, whole, 14, &count) == RCV_DONE);
    CHECK(count == 13 && !memcmp(whole, "wrong 1 line\n", 13));
    free(text);
}

int main(void) {
    rcv_session s = RCV_CLOSED_SESSION;
    rcv_refusal why, before;
    size_t count = 5;
    uint8_t out[1];
    texts();
    closed(&s);
    CHECK(opens(&s, "module m;", false, &why) == RCV_REFUSED && !s.is_open && why.line == 1 && why.code == 11);
    closed(&s);
    CHECK(opens(&s, ping, false, &why) == RCV_DONE && s.is_open);
    CHECK(rcv_answer(&s, out, 0, &count) == RCV_DONE && count == 0); /* nothing was told yet */
    memset(&before, 'x', sizeof before);
    why = before;
    CHECK(opens(&s, ping, false, &why) == RCV_OPENED && s.is_open && is_same(&why, &before));
    CHECK(opens(&s, "", true, &why) == RCV_OPENED && s.is_open);
    numbers(&s);
    lines(&s);
    rcv_close(&s);
    closed(&s);
    CHECK(opens(&s, ping, true, &why) == RCV_DONE); /* it opens again */
    rcv_close(&s);
    closed(&s);
    return 0;
}
