/* A client over a socket, from its first byte to its end. */
#ifndef SESSION_H
#define SESSION_H
#include "rezdolin.h"
#include <string.h>
#include <sys/socket.h>
#include <unistd.h>

/* A record, and how many bytes it has. */
typedef struct kept {
    uint8_t at[REZDOLIN_RECORD_ROOM];
    size_t len;
} kept;

/* What a client keeps: the record that it goes on with and the room for the next one, other rooms, and bytes that came and aren't
 * used. */
typedef struct session {
    kept records[2];
    uint8_t out[REZDOLIN_OUT_ROOM], told[REZDOLIN_TOLD_ROOM], came[4096];
    size_t came_len;
} session;

/* Decides on a question, by one of REZDOLIN_YES and so on; a signature goes to `signature`, which has `*len` bytes of room. */
typedef uint32_t decider(uint8_t *question, size_t question_len, uint8_t *signature, size_t *len);

static inline int send_all(int end, const uint8_t *at, size_t len) {
    for (ssize_t n; len > 0; at += n, len -= (size_t)n)
        if ((n = send(end, at, len, MSG_NOSIGNAL)) <= 0)
            return 0;
    return 1;
}

/* Reads what there is. */
static inline int receive(int end, session *s) {
    ssize_t n = recv(end, s->came, sizeof s->came, 0);
    s->came_len = n > 0 ? (size_t)n : 0;
    return n > 0;
}

/* Carries a client until it has ended, or the socket has: then it is still REZDOLIN_OPEN. What came after its end stays in
 * `came`. The records are exchanged before anything is sent, so no record is used twice, whatever comes of sending. */
static inline rezdolin_step_answer carry(session *s, const rezdolin_client_input *client, int end, decider *decide) {
    uint8_t signature[8192];
    kept *record = &s->records[0], *next = &s->records[1], *old;
    record->len = next->len = s->came_len = 0;
    rezdolin_step_answer a = rezdolin_client_begin(client, next->at, sizeof next->at, s->out, sizeof s->out);
    while (a.status == REZDOLIN_ANSWERED) {
        rezdolin_wipe(record->at, record->len);
        old = record, record = next, next = old;
        next->len = 0, record->len = a.record_len;
        memmove(s->came, s->came + a.used, s->came_len -= a.used);
        if (!send_all(end, s->out, a.sent_len))
            break;
        if (a.end == REZDOLIN_ASKS) {
            size_t len = sizeof signature;
            uint32_t answer = decide(s->told, a.told_len, signature, &len);
            a = rezdolin_client_answer(client, record->at, record->len, answer, signature, answer == REZDOLIN_SIGNATURE ? len : 0,
                                       next->at, sizeof next->at, s->out, sizeof s->out, s->told, sizeof s->told);
        } else if (a.end == REZDOLIN_OPEN && (s->came_len > 0 || receive(end, s))) {
            a = rezdolin_client_step(client, record->at, record->len, s->came, s->came_len,
                                     next->at, sizeof next->at, s->out, sizeof s->out, s->told, sizeof s->told);
        } else {
            break;
        }
    }
    rezdolin_wipe(record->at, record->len);
    return a;
}
#endif
