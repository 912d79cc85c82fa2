/* The calls of rcv.h: a null pointer is answered here, and all else by the library's own code, which is proved. */
#include "rcv.h"

uint32_t rcv_raw_version(void);
rcv_status rcv_raw_check(const uint8_t *text, size_t length, rcv_refusal *why);
rcv_status rcv_raw_open(rcv_session *session, const uint8_t *text, size_t length, bool told, rcv_refusal *why);
void rcv_raw_close(rcv_session *session);
rcv_status rcv_raw_sent(rcv_session *session, uint8_t role, uint16_t point, int64_t value, uint64_t incarnation,
                        uint64_t *stamp);
rcv_status rcv_raw_received(rcv_session *session, uint8_t role, uint16_t point, int64_t value, uint64_t sent,
                            uint64_t incarnation, uint64_t *stamp);
rcv_status rcv_raw_saved(rcv_session *session, uint8_t role, uint64_t count, uint64_t incarnation);
rcv_status rcv_raw_tell(rcv_session *session, const uint8_t *line, size_t length, size_t *count);
rcv_status rcv_raw_answer(rcv_session *session, uint8_t *out, size_t room, size_t *count);

uint32_t rcv_version(void) {
    return rcv_raw_version();
}

rcv_status rcv_check(const uint8_t *text, size_t length, rcv_refusal *why) {
    return text && why ? rcv_raw_check(text, length, why) : RCV_NULL;
}

rcv_status rcv_open(rcv_session *session, const uint8_t *text, size_t length, bool told, rcv_refusal *why) {
    return session && text && why ? rcv_raw_open(session, text, length, told, why) : RCV_NULL;
}

void rcv_close(rcv_session *session) {
    if (session) rcv_raw_close(session);
}

rcv_status rcv_sent(rcv_session *session, uint8_t role, uint16_t point, int64_t value, uint64_t incarnation,
                    uint64_t *stamp) {
    return session && stamp ? rcv_raw_sent(session, role, point, value, incarnation, stamp) : RCV_NULL;
}

rcv_status rcv_received(rcv_session *session, uint8_t role, uint16_t point, int64_t value, uint64_t sent,
                        uint64_t incarnation, uint64_t *stamp) {
    return session && stamp ? rcv_raw_received(session, role, point, value, sent, incarnation, stamp) : RCV_NULL;
}

rcv_status rcv_saved(rcv_session *session, uint8_t role, uint64_t count, uint64_t incarnation) {
    return session ? rcv_raw_saved(session, role, count, incarnation) : RCV_NULL;
}

rcv_status rcv_tell(rcv_session *session, const uint8_t *line, size_t length, size_t *count) {
    return session && line && count ? rcv_raw_tell(session, line, length, count) : RCV_NULL;
}

rcv_status rcv_answer(rcv_session *session, uint8_t *out, size_t room, size_t *count) {
    return session && out && count ? rcv_raw_answer(session, out, room, count) : RCV_NULL;
}
