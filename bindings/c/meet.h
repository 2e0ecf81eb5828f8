/* A client and a server that meet in memory, for the tests beside this file. */
#ifndef MEET_H
#define MEET_H
#include "rezdolin.h"
#include <stdbool.h>
#include <stdio.h>
#include <stdlib.h>
#include <string.h>

#define TEXT(text) ((rezdolin_bytes)REZDOLIN_TEXT(text))
#define CLIENT 0
#define SERVER 1

/* What is answered to a question, and a signature where it is one. */
typedef struct reply {
    uint32_t answer;
    rezdolin_bytes signature;
} reply;

/* One side: its records, of which the one at `now` is that to go on with; what it has sent; how much it has used of what the other
 * has sent; and what its last call answered. */
typedef struct side {
    uint8_t records[2][REZDOLIN_RECORD_ROOM], told[REZDOLIN_TOLD_ROOM], sent[262144];
    int now;
    size_t record_len, sent_len, used, largest;
    rezdolin_step_answer last;
    unsigned calls, questions;
} side;

/* Both sides: what they are made of, and how they stand. */
typedef struct meeting {
    uint8_t drawn[2][112], host_secret[32], user_secret[32], host_key[64], user_key[64];
    rezdolin_bytes trusted;
    rezdolin_attempt plan[2];
    rezdolin_host_key host;
    rezdolin_user users[2];
    rezdolin_client_input client;
    rezdolin_server_input server;
    side sides[2];
    reply (*decide)(struct meeting *m, int server, uint8_t *question, size_t len);
} meeting;

static inline rezdolin_side side_of(const uint8_t *drawn) {
    rezdolin_bytes ciphers = TEXT(REZDOLIN_CIPHERS), macs = TEXT(REZDOLIN_MACS);
    return (rezdolin_side){TEXT("rezdolin"), TEXT(""), TEXT(REZDOLIN_KEX), ciphers, ciphers, macs, macs,
                           {drawn, 16}, {drawn + 16, 32}, {drawn + 48, 32}, REZDOLIN_STRICT_YES, REZDOLIN_READING_DEPLOYED};
}

/* The public key of a secret, as often as memory is wanting. */
static inline size_t public_key(const uint8_t *secret, uint8_t *out, size_t room) {
    rezdolin_bytes_answer answer;
    do
        answer = rezdolin_public_key(secret, 32, out, room);
    while (answer.status == REZDOLIN_MEMORY);
    return answer.status == REZDOLIN_ANSWERED ? answer.len : 0;
}

static inline reply say_yes(meeting *m, int server, uint8_t *question, size_t len) {
    (void)m, (void)server, (void)question, (void)len;
    return (reply){REZDOLIN_YES, TEXT("")};
}

/* A user `al` with a key that is asked about and the password `secret`, and a server that takes either. */
static inline void begin(meeting *m, unsigned seed) {
    for (int i = 0; i < 2; i++) { /* the rooms are left as they are */
        side *s = &m->sides[i];
        s->now = 0;
        s->record_len = s->sent_len = s->used = s->largest = s->calls = s->questions = 0;
        s->last = (rezdolin_step_answer){0};
    }
    srand(seed);
    for (size_t i = 0; i < sizeof m->drawn; i++)
        ((uint8_t *)m->drawn)[i] = (uint8_t)rand();
    for (int i = 0; i < 32; i++) {
        m->host_secret[i] = (uint8_t)rand();
        m->user_secret[i] = (uint8_t)rand();
    }
    size_t host_len = public_key(m->host_secret, m->host_key, sizeof m->host_key);
    size_t user_len = public_key(m->user_secret, m->user_key, sizeof m->user_key);
    m->decide = say_yes;
    m->trusted = (rezdolin_bytes){m->host_key, host_len};
    m->plan[0] = (rezdolin_attempt){TEXT("al"), TEXT("ssh-connection"), TEXT(REZDOLIN_HOST_KEY), {m->user_secret, 32},
                                    REZDOLIN_METHOD_PUBLICKEY, 1};
    m->plan[1] = (rezdolin_attempt){TEXT("al"), TEXT("ssh-connection"), TEXT(""), TEXT("secret"), REZDOLIN_METHOD_PASSWORD, 0};
    m->client = (rezdolin_client_input){.side = side_of(m->drawn[CLIENT]), .server_host_key_algorithms = TEXT(REZDOLIN_HOST_KEY),
                                        .plan = m->plan, .plan_len = 2, .trusted_host_keys = &m->trusted, .trusted_host_keys_len = 1};
    m->host = (rezdolin_host_key){TEXT(REZDOLIN_HOST_KEY), {m->host_secret, 32}, REZDOLIN_KEY_HERE};
    m->users[0] = (rezdolin_user){TEXT("al"), {m->user_key, user_len}, REZDOLIN_METHOD_PUBLICKEY};
    m->users[1] = (rezdolin_user){TEXT("al"), TEXT("secret"), REZDOLIN_METHOD_PASSWORD};
    m->server = (rezdolin_server_input){.side = side_of(m->drawn[SERVER]), .host_keys = &m->host, .host_keys_len = 1,
                                        .services = TEXT("ssh-connection"), .methods = TEXT("password,publickey"),
                                        .required = TEXT(""), .banner = TEXT("hello\r\n"),
                                        .notice_lines = &m->trusted, .notice_lines_len = 0,
                                        .users = m->users, .users_len = 2, .tries = 6};
}

/* The calls of either side, by the record that it goes on with. What they write goes to the record's other place, and behind what
 * the side has sent. */
static inline rezdolin_step_answer call_begin(meeting *m, int server) {
    side *s = &m->sides[server];
    uint8_t *next = s->records[!s->now], *out = s->sent + s->sent_len;
    size_t room = sizeof s->sent - s->sent_len;
    return server ? rezdolin_server_begin(&m->server, next, REZDOLIN_RECORD_ROOM, out, room)
                  : rezdolin_client_begin(&m->client, next, REZDOLIN_RECORD_ROOM, out, room);
}

static inline rezdolin_step_answer call_step(meeting *m, int server, const uint8_t *piece, size_t len) {
    side *s = &m->sides[server];
    uint8_t *record = s->records[s->now], *next = s->records[!s->now], *out = s->sent + s->sent_len;
    size_t room = sizeof s->sent - s->sent_len;
    return server ? rezdolin_server_step(&m->server, record, s->record_len, piece, len, next, REZDOLIN_RECORD_ROOM, out, room, s->told, sizeof s->told)
                  : rezdolin_client_step(&m->client, record, s->record_len, piece, len, next, REZDOLIN_RECORD_ROOM, out, room, s->told, sizeof s->told);
}

static inline rezdolin_step_answer call_answer(meeting *m, int server, reply r) {
    side *s = &m->sides[server];
    uint8_t *record = s->records[s->now], *next = s->records[!s->now], *out = s->sent + s->sent_len;
    size_t room = sizeof s->sent - s->sent_len;
    return server ? rezdolin_server_answer(&m->server, record, s->record_len, r.answer, r.signature.at, r.signature.len, next, REZDOLIN_RECORD_ROOM, out, room, s->told, sizeof s->told)
                  : rezdolin_client_answer(&m->client, record, s->record_len, r.answer, r.signature.at, r.signature.len, next, REZDOLIN_RECORD_ROOM, out, room, s->told, sizeof s->told);
}

static inline rezdolin_step_answer call_disconnect(meeting *m, int server, uint32_t reason, rezdolin_bytes text) {
    side *s = &m->sides[server];
    uint8_t *record = s->records[s->now], *out = s->sent + s->sent_len;
    size_t room = sizeof s->sent - s->sent_len;
    return server ? rezdolin_server_disconnect(&m->server, record, s->record_len, reason, text.at, text.len, out, room)
                  : rezdolin_client_disconnect(&m->client, record, s->record_len, reason, text.at, text.len, out, room);
}

/* Takes what a call answered: its record is the one to go on with now. */
static inline void take(meeting *m, int server, rezdolin_step_answer a) {
    side *s = &m->sides[server];
    s->last = a;
    s->calls++;
    if (a.status != REZDOLIN_ANSWERED)
        return;
    rezdolin_wipe(s->records[s->now], s->record_len);
    s->now = !s->now;
    s->record_len = a.record_len;
    s->sent_len += a.sent_len;
    s->used += a.used;
    if (a.record_len > s->largest)
        s->largest = a.record_len;
}

/* Makes one call of a side that isn't at its end: its first one, the answer to its question, or a step by at most `size` bytes of what
 * the other has sent. Where memory ran out it is made again. False where there is nothing to do. */
static inline bool go(meeting *m, int server, size_t size) {
    side *s = &m->sides[server], *other = &m->sides[!server];
    rezdolin_step_answer a;
    size_t left = other->sent_len - s->used;
    bool asks = s->last.end == REZDOLIN_ASKS;
    if (s->last.status != REZDOLIN_ANSWERED || (s->calls > 0 && !asks && (s->last.end != REZDOLIN_OPEN || left == 0)))
        return false;
    s->questions += asks;
    reply r = asks ? m->decide(m, server, s->told, s->last.told_len) : (reply){0};
    do
        a = s->calls == 0 ? call_begin(m, server) : asks ? call_answer(m, server, r) : call_step(m, server, other->sent + s->used, left < size ? left : size);
    while (a.status == REZDOLIN_MEMORY);
    take(m, server, a);
    return true;
}

/* Both sides talk until neither has more to do. */
static inline void meet(meeting *m, size_t size) {
    for (bool goes = true; goes;) {
        goes = false;
        for (int server = 1; server >= 0; server--)
            while (go(m, server, size))
                goes = true;
    }
}

static inline bool ended(const meeting *m, int server, uint32_t end, uint32_t fault, uint32_t detail) {
    const rezdolin_step_answer *a = &m->sides[server].last;
    bool goes_on = end == REZDOLIN_OPEN || end == REZDOLIN_ASKS;
    return a->status == REZDOLIN_ANSWERED && a->end == end && a->fault == fault && a->detail == detail && a->config == 0
           && (a->record_len > 0) == goes_on && (a->told_len > 0) == (end == REZDOLIN_AUTHENTICATED || end == REZDOLIN_ASKS);
}

static inline bool are_authenticated(const meeting *m) {
    return ended(m, CLIENT, REZDOLIN_AUTHENTICATED, 0, 0) && ended(m, SERVER, REZDOLIN_AUTHENTICATED, 0, 0);
}

/* Whether a call answered this status, and nothing else but what `config` or the lengths say. */
static inline bool is_refusal(rezdolin_step_answer a, uint32_t status, uint32_t config) {
    return a.status == status && a.config == config && a.end == 0 && a.fault == 0 && a.detail == 0 && a.used == 0
           && (status == REZDOLIN_ROOM || (a.sent_len == 0 && a.record_len == 0 && a.told_len == 0));
}

/* A field of a question or of a session's record. */
static inline rezdolin_bytes field_in(const uint8_t *record, size_t len, unsigned number) {
    size_t count;
    uint8_t *at = rezdolin_field((uint8_t *)record, len, number, &count);
    return (rezdolin_bytes){at, count};
}

/* A field of a side's session. */
static inline rezdolin_bytes field(const meeting *m, int server, unsigned number) {
    return field_in(m->sides[server].told, m->sides[server].last.told_len, number);
}

static inline bool equal(rezdolin_bytes a, rezdolin_bytes b) { return a.at && a.len == b.len && memcmp(a.at, b.at, a.len) == 0; }

static inline bool is(rezdolin_bytes a, const char *text) {
    return equal(a, (rezdolin_bytes){(const uint8_t *)text, strlen(text)});
}

static inline bool is_byte(rezdolin_bytes a, uint8_t byte) { return a.at && a.len == 1 && a.at[0] == byte; }

/* A number of 4 bytes, and 0 where it isn't one. */
static inline uint32_t number_in(rezdolin_bytes a) {
    return a.len == 4 ? (uint32_t)a.at[0] << 24 | (uint32_t)a.at[1] << 16 | (uint32_t)a.at[2] << 8 | a.at[3] : 0;
}

/* Whether both meetings have sent the same. */
static inline bool is_same_talk(const meeting *one, const meeting *other) {
    for (int i = 0; i < 2; i++)
        if (one->sides[i].sent_len != other->sides[i].sent_len || memcmp(one->sides[i].sent, other->sides[i].sent, one->sides[i].sent_len) != 0)
            return false;
    return true;
}

/* One side sends a payload, and the other opens the packet: how the first call answers that isn't answered. */
static inline uint32_t pass(meeting *m, int from, const uint8_t *payload, size_t len, uint8_t *opened, size_t *opened_len) {
    static uint8_t packet[REZDOLIN_PACKET_ROOM];
    rezdolin_bytes out = field(m, from, REZDOLIN_OUTGOING), in = field(m, !from, REZDOLIN_INCOMING);
    rezdolin_bytes_answer sealed, open;
    do
        sealed = rezdolin_seal((uint8_t *)out.at, out.len, m->drawn[from] + 80, 32, payload, len, packet, sizeof packet);
    while (sealed.status == REZDOLIN_MEMORY);
    if (sealed.status != REZDOLIN_ANSWERED)
        return sealed.status;
    do
        open = rezdolin_open((uint8_t *)in.at, in.len, packet, sealed.len, opened, REZDOLIN_PACKET_ROOM);
    while (open.status == REZDOLIN_MEMORY);
    *opened_len = open.len;
    return open.status == REZDOLIN_ANSWERED && open.used != sealed.len ? 99 : open.status;
}

/* Counts rows. */
static unsigned passed, failed;

static inline void row(const char *name, bool holds) {
    passed += holds;
    failed += !holds;
    printf("%s%s\n", holds ? "passed: " : "FAILED: ", name);
}

static inline int counted(void) {
    printf("%u passed, %u failed\n", passed, failed);
    return failed != 0;
}
#endif
