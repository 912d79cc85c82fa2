/* rcv.h: message protocols that can't get stuck, and who goes back where a role fails. docs/GUIDE.md says what a session
 * is, and has the lines that rcv_tell takes. */
#ifndef RCV_H
#define RCV_H

#include <stdbool.h>
#include <stddef.h>
#include <stdint.h>

#ifdef __cplusplus
extern "C" {
#endif

/* The version of this header: it grows with each call that is added. */
#define RCV_VERSION 1

typedef uint8_t rcv_status;
enum {
    RCV_DONE = 0,    /* it did what it says */
    RCV_REFUSED = 1, /* the text is refused: the refusal says why */
    RCV_ILLEGAL = 2, /* the event may not come: nothing has changed */
    RCV_CLOSED = 3,  /* the session is closed */
    RCV_OPENED = 4,  /* the session is open already */
    RCV_RANGE = 5,   /* no such role or point: nothing has changed */
    RCV_SHORT = 6,   /* the list is too short: the count says how many are wanted */
    RCV_LONG = 7,    /* the text has more than 1,048,576 bytes */
    RCV_MEMORY = 8,  /* no memory was left: nothing has changed (but rcv_tell closes the session) */
    RCV_NULL = 9,    /* a pointer is null */
    RCV_STALE = 10   /* the event is old news: nothing has changed */
};

/* A session is a variable of yours: zeros at first, and then only what the calls write. It is never copied and never read.
 * It is given to one call at a time, by one thread. */
typedef struct rcv_session {
    void *hidden;
    bool is_open;
} rcv_session;
#define RCV_CLOSED_SESSION { 0, false }

/* A refusal. The code is one of docs/FORMATS.md (Refusals). Where the line isn't 0 the text breaks a rule there, counted
 * from 1; else at a role, with a name of so many bytes (not ended by a 0), and a place or point. */
typedef struct rcv_refusal {
    uint32_t line;
    uint16_t number;
    uint8_t code;
    uint8_t length;
    uint8_t role[64];
} rcv_refusal;

/* In place of an incarnation or a stamp: none is told. */
#define RCV_NONE UINT64_MAX

/* The version of the library: at least RCV_VERSION where this header's calls are all there. */
uint32_t rcv_version(void);

/* Whether a text is an accepted protocol, with scripts and a plan if it has any. RCV_DONE, RCV_REFUSED, RCV_LONG,
 * RCV_MEMORY. The refusal is written where it is refused, and else left as it is. */
rcv_status rcv_check(const uint8_t *text, size_t length, rcv_refusal *why);

/* Opens a closed session on a text, as rcv-guide begins it, or, where `told`, as rcv-guide --told: nothing counts as saved
 * but what is told. RCV_DONE, RCV_OPENED, and as rcv_check. */
rcv_status rcv_open(rcv_session *session, const uint8_t *text, size_t length, bool told, rcv_refusal *why);

/* Closes a session, and frees what it holds. A closed one stays closed. */
void rcv_close(rcv_session *session);

/* Events, as the lines `send`, `recv` and `save` tell them: roles count from 0 in order of declaration, points from 1. The
 * stamp of a send goes with its message; `sent` is the one that came with a message that is received. RCV_DONE, and then
 * the stamp is written; RCV_ILLEGAL, RCV_STALE, RCV_MEMORY, RCV_RANGE, RCV_CLOSED, and then nothing is. */
rcv_status rcv_sent(rcv_session *session, uint8_t role, uint16_t point, int64_t value, uint64_t incarnation,
                    uint64_t *stamp);
rcv_status rcv_received(rcv_session *session, uint8_t role, uint16_t point, int64_t value, uint64_t sent,
                        uint64_t incarnation, uint64_t *stamp);
rcv_status rcv_saved(rcv_session *session, uint8_t role, uint64_t count, uint64_t incarnation);

/* Tells any line of the dialogue, without the LF at its end: events, failures, questions. RCV_DONE whatever is answered:
 * the answer says it, has `count` bytes, and is kept till the next line is told. RCV_CLOSED; RCV_MEMORY where no memory was
 * left for the answer: the session is closed then. */
rcv_status rcv_tell(rcv_session *session, const uint8_t *line, size_t length, size_t *count);

/* The bytes of the last answer, with the LF at its end; none before a line was told. RCV_DONE; RCV_SHORT where they don't
 * fit in the room, and `out` is left as it is: `count` says how many they are. RCV_CLOSED. */
rcv_status rcv_answer(rcv_session *session, uint8_t *out, size_t room, size_t *count);

#ifdef __cplusplus
}
#endif
#endif
