/* A client and a server in memory that decide themselves: each row of what they are asked and answer, and how both end. */
#include "meet.h"

static meeting s, other;
/* Of each side: what it was asked, and how long those are; and which methods the server accepts. */
static uint8_t questions[2][16][256];
static size_t counts[2], lengths[2][16];
static bool accepts[3], trusts;

/* A field of a question that was kept. */
static rezdolin_bytes asked(int server, size_t number, unsigned field) {
    return field_in(questions[server][number], lengths[server][number], field);
}

/* Whether a question of the server's has this flag: 1 where a signature has been verified, 0 where there is none. */
static bool is_signed(size_t number, uint8_t flag) {
    return is_byte(asked(1, number, REZDOLIN_QUESTION_SIGNED), flag);
}

/* What the server's directory says: whether the user is accepted by what the request proves, or would be by the key. */
static bool is_accepted(uint8_t *question, size_t len) {
    if (!is(field_in(question, len, REZDOLIN_QUESTION_USER), "al"))
        return false;
    switch (number_in(field_in(question, len, REZDOLIN_QUESTION_METHOD))) {
    case REZDOLIN_METHOD_PASSWORD:
        return accepts[1] && is(field_in(question, len, REZDOLIN_QUESTION_PASSWORD), "secret");
    case REZDOLIN_METHOD_PUBLICKEY:
        return accepts[2] && equal(field_in(question, len, REZDOLIN_QUESTION_KEY), s.users[0].proof);
    case REZDOLIN_METHOD_NONE:
        return accepts[0];
    default:
        return false;
    }
}

/* Keeps a question, and answers it. */
static reply decide(meeting *m, int server, uint8_t *question, size_t len) {
    (void)m;
    bool holds;
    if (counts[server] < 16 && len <= sizeof questions[0][0])
        memcpy(questions[server][counts[server]], question, lengths[server][counts[server]] = len), counts[server]++;
    if (is_byte(field_in(question, len, REZDOLIN_QUESTION_KIND), REZDOLIN_ASKS_USER))
        holds = server && is_accepted(question, len);
    else
        holds = !server && trusts && equal(field_in(question, len, REZDOLIN_QUESTION_KEY), s.trusted);
    return (reply){holds ? REZDOLIN_YES : REZDOLIN_NO, TEXT("")};
}

/* A client and a server that ask, without lists. */
static void begin_asking(unsigned seed) {
    begin(&s, seed);
    memset(counts, 0, sizeof counts);
    s.decide = decide;
    s.client.asks = s.server.asks = 1;
    s.client.trusted_host_keys_len = s.server.users_len = 0;
    accepts[0] = false;
    accepts[1] = accepts[2] = trusts = true;
}

static void decisions(void) {
    begin_asking(1);
    meet(&s, 65536);
    row("yes: a host key, a query and its signed key", are_authenticated(&s) && counts[0] == 1 && counts[1] == 2);
    row("what a client is asked", is_byte(asked(0, 0, REZDOLIN_QUESTION_KIND), REZDOLIN_ASKS_HOST_KEY)
                                      && is(asked(0, 0, REZDOLIN_QUESTION_ALGORITHM), "ssh-ed25519")
                                      && equal(asked(0, 0, REZDOLIN_QUESTION_KEY), s.trusted)
                                      && is(asked(0, 0, REZDOLIN_QUESTION_USER), "")
                                      && is(asked(0, 0, REZDOLIN_QUESTION_NUMBER), "")
                                      && is(asked(0, 0, REZDOLIN_QUESTION_SIGNED), ""));
    bool same = true;
    for (size_t i = 0; i < 2; i++)
        same = same && is_byte(asked(1, i, REZDOLIN_QUESTION_KIND), REZDOLIN_ASKS_USER)
               && number_in(asked(1, i, REZDOLIN_QUESTION_NUMBER)) == i + 1
               && is(asked(1, i, REZDOLIN_QUESTION_USER), "al") && is(asked(1, i, REZDOLIN_QUESTION_SERVICE), "ssh-connection")
               && number_in(asked(1, i, REZDOLIN_QUESTION_METHOD)) == REZDOLIN_METHOD_PUBLICKEY
               && is(asked(1, i, REZDOLIN_QUESTION_ALGORITHM), "ssh-ed25519")
               && equal(asked(1, i, REZDOLIN_QUESTION_KEY), s.users[0].proof) && is(asked(1, i, REZDOLIN_QUESTION_PASSWORD), "");
    row("what a server is asked of a key", same);
    row("a query has no signature, a request has one", is_signed(0, 0) && is_signed(1, 1));
    row("there are 9 fields", asked(0, 0, 9).at == NULL && asked(1, 0, 9).at == NULL);
    begin(&other, 1);
    meet(&other, 65536);
    row("lists and answers send the same", is_same_talk(&s, &other));
    same = true;
    for (int server = 0; server < 2; server++)
        for (unsigned i = 0; i < 20; i++)
            same = same && equal(field(&s, server, i), field(&other, server, i));
    row("and leave the same session", same);
    begin_asking(2);
    accepts[2] = false;
    meet(&s, 65536);
    row("a key no, a password yes", are_authenticated(&s) && counts[1] == 2
                                        && number_in(asked(1, 1, REZDOLIN_QUESTION_METHOD)) == REZDOLIN_METHOD_PASSWORD
                                        && is(asked(1, 1, REZDOLIN_QUESTION_PASSWORD), "secret")
                                        && is(asked(1, 1, REZDOLIN_QUESTION_KEY), "") && is_signed(0, 0) && is_signed(1, 0)
                                        && is_byte(field(&s, SERVER, REZDOLIN_BY_PASSWORD), 1));
    begin_asking(3);
    s.plan[0].ask = 0;
    meet(&s, 65536);
    row("a signed key, without a query", are_authenticated(&s) && counts[1] == 1 && is_signed(0, 1) && field(&s, SERVER, REZDOLIN_BY_KEY).len == 51);
    begin_asking(4);
    accepts[1] = accepts[2] = false;
    meet(&s, 65536);
    row("no to all", ended(&s, CLIENT, REZDOLIN_FAILED, 14, 0) && ended(&s, SERVER, REZDOLIN_CLOSED, 0, 14) && counts[1] == 2);
    begin_asking(5);
    trusts = false;
    meet(&s, 65536);
    row("a host key no", ended(&s, CLIENT, REZDOLIN_FAILED, 10, 0) && ended(&s, SERVER, REZDOLIN_CLOSED, 0, 9) && counts[0] == 1 && counts[1] == 0);
    begin_asking(6);
    s.plan[0].method = REZDOLIN_METHOD_NONE;
    meet(&s, 65536);
    row("nothing proved is asked", are_authenticated(&s) && counts[1] == 2 && number_in(asked(1, 0, REZDOLIN_QUESTION_METHOD)) == REZDOLIN_METHOD_NONE
                                       && is_signed(0, 0));
    begin_asking(7);
    s.server.required = TEXT("publickey,password");
    meet(&s, 65536);
    row("both required", are_authenticated(&s) && counts[1] == 3 && is_signed(0, 0) && is_signed(1, 1) && is_signed(2, 0));
    begin_asking(8);
    s.client.trusted_host_keys_len = 1;
    s.server.users_len = 2;
    trusts = false;
    meet(&s, 65536);
    row("lists aren't read", ended(&s, CLIENT, REZDOLIN_FAILED, 10, 0) && counts[0] == 1);
    begin_asking(9);
    s.server.asks = 0;
    s.server.users_len = 2;
    meet(&s, 65536);
    row("a client that asks, at a server that doesn't", are_authenticated(&s) && counts[0] == 1 && counts[1] == 0);
}

/* The client has come to its question. */
static void come_to_question(unsigned seed) {
    begin_asking(seed);
    while (s.sides[CLIENT].last.end != REZDOLIN_ASKS && (go(&s, SERVER, 65536) || go(&s, CLIENT, 65536))) {
    }
}

/* What an answer of the client's comes to, and that the room of questions has been emptied. */
static bool answers(uint32_t answer, rezdolin_bytes signature, uint32_t status) {
    side *client = &s.sides[CLIENT];
    client->told[0] = client->told[3] = client->told[4] = 9;
    rezdolin_step_answer a = call_answer(&s, CLIENT, (reply){answer, signature});
    bool is_empty = client->told[0] == 0 && client->told[3] == 0 && client->told[4] == 9;
    return is_empty && (status == REZDOLIN_ANSWERED ? a.status == status : is_refusal(a, status, 0));
}

static void numbers(void) {
    rezdolin_bytes none = TEXT(""), some = TEXT("signature");
    come_to_question(10);
    row("a question", ended(&s, CLIENT, REZDOLIN_ASKS, 0, 0) && s.sides[CLIENT].used < s.sides[SERVER].sent_len);
    static const uint32_t others[5] = {0, 5, 0x79, 256, 0xffffffff};
    for (int i = 0; i < 5; i++)
        row("an answer that is none", answers(others[i], none, REZDOLIN_UNREADABLE) && answers(others[i], some, REZDOLIN_UNREADABLE));
    row("yes with a signature", answers(REZDOLIN_YES, some, REZDOLIN_UNREADABLE));
    row("no with a signature", answers(REZDOLIN_NO, some, REZDOLIN_UNREADABLE));
    row("no signature with one", answers(REZDOLIN_NO_SIGNATURE, some, REZDOLIN_UNREADABLE));
    row("a signature without one", answers(REZDOLIN_SIGNATURE, none, REZDOLIN_UNREADABLE));
    row("a signature where none is asked", answers(REZDOLIN_SIGNATURE, some, REZDOLIN_UNASKED));
    row("no signature where none is asked", answers(REZDOLIN_NO_SIGNATURE, none, REZDOLIN_UNASKED));
    side *client = &s.sides[CLIENT];
    size_t len = client->last.told_len, record_len = client->record_len;
    static uint8_t question[256], record[4096];
    memcpy(record, client->records[client->now], record_len);
    row("the question of the step", len > 4 && len <= sizeof question);
    for (size_t i = 0; i < 3; i++) {
        const uint8_t *rest = s.sides[SERVER].sent + client->used;
        take(&s, CLIENT, call_step(&s, CLIENT, rest, i ? s.sides[SERVER].sent_len - client->used : 0));
        row("a step while it asks", ended(&s, CLIENT, REZDOLIN_ASKS, 0, 0) && client->last.used == 0 && client->last.sent_len == 0
                                        && client->last.told_len == len && is_byte(field(&s, CLIENT, REZDOLIN_QUESTION_KIND), REZDOLIN_ASKS_HOST_KEY)
                                        && equal(field(&s, CLIENT, REZDOLIN_QUESTION_KEY), s.trusted)
                                        && client->record_len == record_len && memcmp(record, client->records[client->now], record_len) == 0);
    }
    row("yes", answers(REZDOLIN_YES, none, REZDOLIN_ANSWERED));
    come_to_question(10);
    take(&s, CLIENT, call_answer(&s, CLIENT, (reply){REZDOLIN_YES, none}));
    row("it goes on", ended(&s, CLIENT, REZDOLIN_OPEN, 0, 0) && s.sides[CLIENT].last.sent_len > 0 && s.sides[CLIENT].last.used == 0);
    row("an answer twice", answers(REZDOLIN_YES, none, REZDOLIN_UNASKED));
    begin_asking(11);
    go(&s, CLIENT, 1), go(&s, SERVER, 1);
    row("an answer before any question", answers(REZDOLIN_YES, none, REZDOLIN_UNASKED) && answers(REZDOLIN_NO_SIGNATURE, none, REZDOLIN_UNASKED));
    row("an answer before any question of a server", is_refusal(call_answer(&s, SERVER, (reply){REZDOLIN_YES, none}), REZDOLIN_UNASKED, 0));
    begin(&s, 12);
    go(&s, CLIENT, 1), go(&s, SERVER, 1);
    row("an answer to one that never asks", answers(REZDOLIN_YES, none, REZDOLIN_UNASKED));
    s.sides[CLIENT].told[0] = s.sides[CLIENT].told[3] = 9;
    go(&s, CLIENT, 1);
    row("and no question is left", s.sides[CLIENT].told[0] == 0 && s.sides[CLIENT].told[3] == 0);
}

/* A server whose room for questions is small is asked about a key, and then about a password that doesn't fit there. */
static void stale(void) {
    static uint8_t password[900], question[512], next[REZDOLIN_RECORD_ROOM], out[65536];
    memset(password, 'x', sizeof password);
    begin_asking(13);
    s.plan[1].secret = (rezdolin_bytes){password, sizeof password};
    accepts[2] = false;
    side *server = &s.sides[SERVER];
    while (counts[SERVER] < 1 && (go(&s, CLIENT, 65536) || go(&s, SERVER, 65536))) {
    }
    memcpy(question, questions[SERVER][0], lengths[SERVER][0]);
    row("the key's question", equal(field_in(question, lengths[SERVER][0], REZDOLIN_QUESTION_KEY), s.users[0].proof));
    while (server->last.end != REZDOLIN_ASKS && (go(&s, CLIENT, 65536) || go(&s, SERVER, 65536))) {
    }
    row("a password is asked about", ended(&s, SERVER, REZDOLIN_ASKS, 0, 0) && server->last.told_len > 900);
    rezdolin_step_answer a = rezdolin_server_step(&s.server, server->records[server->now], server->record_len, out, 0, next, sizeof next, out, sizeof out, question, sizeof question);
    row("it has no room, and the key's is gone", is_refusal(a, REZDOLIN_ROOM, 0) && a.told_len == server->last.told_len
                                                     && field_in(question, sizeof question, REZDOLIN_QUESTION_KIND).len == 0
                                                     && field_in(question, sizeof question, REZDOLIN_QUESTION_KEY).at == NULL);
}

int main(void) {
    decisions();
    numbers();
    stale();
    return counted();
}
