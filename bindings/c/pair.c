/* A client and a server in memory: each row of what they are made of, and how both end. */
#include "meet.h"

static meeting s, other;

static void methods(void) {
    begin(&s, 1);
    meet(&s, 65536);
    row("a key that is asked about", are_authenticated(&s) && is(field(&s, SERVER, REZDOLIN_BY_KEY_ALGORITHM), "ssh-ed25519"));
    row("the key that came in", equal(field(&s, SERVER, REZDOLIN_BY_KEY), s.users[0].proof));
    row("no password came in", is(field(&s, SERVER, REZDOLIN_BY_PASSWORD), "") == false && field(&s, SERVER, REZDOLIN_BY_PASSWORD).at[0] == 0);
    begin(&s, 2);
    s.plan[0].ask = 0;
    meet(&s, 65536);
    row("a key that isn't asked about", are_authenticated(&s));
    begin(&s, 3);
    s.plan[0] = s.plan[1];
    s.client.plan_len = 1;
    meet(&s, 65536);
    row("a password", are_authenticated(&s) && field(&s, SERVER, REZDOLIN_BY_PASSWORD).at[0] == 1);
    row("a client doesn't say how", field(&s, CLIENT, REZDOLIN_BY_PASSWORD).len == 0 && field(&s, CLIENT, REZDOLIN_BY_KEY).len == 0);
    begin(&s, 4);
    s.plan[0].method = s.users[0].method = REZDOLIN_METHOD_NONE;
    s.users[0].proof = TEXT("");
    meet(&s, 65536);
    row("no proof", are_authenticated(&s) && field(&s, SERVER, REZDOLIN_BY_PASSWORD).at[0] == 0);
    begin(&s, 5);
    s.server.required = TEXT("publickey,password");
    meet(&s, 65536);
    row("both required", are_authenticated(&s) && field(&s, SERVER, REZDOLIN_BY_PASSWORD).at[0] == 1 && field(&s, SERVER, REZDOLIN_BY_KEY).len == 51);
    begin(&s, 6);
    s.server.required = TEXT("publickey,password");
    s.client.plan_len = 1;
    meet(&s, 65536);
    row("both required, one tried", ended(&s, CLIENT, REZDOLIN_FAILED, 14, 0) && ended(&s, SERVER, REZDOLIN_CLOSED, 0, 14));
}

static void refusals(void) {
    begin(&s, 7);
    s.users[0].user = s.users[1].user = TEXT("bo");
    meet(&s, 65536);
    row("another user", ended(&s, CLIENT, REZDOLIN_FAILED, 14, 0) && ended(&s, SERVER, REZDOLIN_CLOSED, 0, 14));
    begin(&s, 8);
    s.host_key[30] ^= 1;
    meet(&s, 65536);
    row("another host key", ended(&s, CLIENT, REZDOLIN_FAILED, 10, 0) && ended(&s, SERVER, REZDOLIN_CLOSED, 0, 9));
    begin(&s, 9);
    s.client.trusted_host_keys_len = 0;
    meet(&s, 65536);
    row("no host key is trusted", ended(&s, CLIENT, REZDOLIN_FAILED, 10, 0));
    begin(&s, 10);
    s.client.side.encryption_server_to_client = TEXT("aes256-gcm@openssh.com");
    s.server.side.encryption_server_to_client = TEXT("chacha20-poly1305@openssh.com");
    meet(&s, 65536);
    row("no cipher in common", ended(&s, CLIENT, REZDOLIN_FAILED, 8, 4) && ended(&s, SERVER, REZDOLIN_FAILED, 8, 4));
    begin(&s, 11);
    s.plan[0].service = s.plan[1].service = TEXT("ssh-other");
    meet(&s, 65536);
    row("a service that the server hasn't", ended(&s, SERVER, REZDOLIN_FAILED, 12, 0));
    begin(&s, 12);
    s.server.tries = 1;
    s.users[0].user = TEXT("bo");
    meet(&s, 65536);
    row("too many requests", ended(&s, SERVER, REZDOLIN_FAILED, 13, 0));
    begin(&s, 13);
    take(&s, CLIENT, call_begin(&s, CLIENT));
    take(&s, CLIENT, call_step(&s, CLIENT, (const uint8_t *)"SSH-1.0-old\r\n", 13));
    row("a version line that is refused", ended(&s, CLIENT, REZDOLIN_FAILED, 1, 0));
}

/* A peer's version line, read by this grammar: whether a client and a server take it; a side that doesn't ends as F1. */
static bool reads(uint32_t reading, const char *line, bool client_takes, bool server_takes) {
    bool takes[2] = {client_takes, server_takes}, holds = true;
    size_t len = strlen(line);
    begin(&s, 20);
    s.client.side.reading = s.server.side.reading = reading;
    for (int server = 0; server < 2; server++) {
        take(&s, server, call_begin(&s, server));
        take(&s, server, call_step(&s, server, (const uint8_t *)line, len));
        holds = holds && (takes[server] ? ended(&s, server, REZDOLIN_OPEN, 0, 0) && s.sides[server].last.used == len : ended(&s, server, REZDOLIN_FAILED, 1, 0));
    }
    return holds;
}

static void readings(void) {
    const uint32_t left_out = 0, letter = REZDOLIN_READING_STRICT;
    row("the reading that was left out is the deployed one", left_out == REZDOLIN_READING_DEPLOYED);
    row("a line of the letter", reads(left_out, "SSH-2.0-a_b c\r\n", true, true));
    row("a minus sign", reads(left_out, "SSH-2.0-a-b\r\n", true, true));
    row("LF alone", reads(left_out, "SSH-2.0-a\n", true, true));
    row("1.99", reads(left_out, "SSH-1.99-a\r\n", true, false));
    row("1.0", reads(left_out, "SSH-1.0-a\r\n", false, false));
    row("by the letter: a line of it", reads(letter, "SSH-2.0-a_b c\r\n", true, true));
    row("by the letter: a minus sign", reads(letter, "SSH-2.0-a-b\r\n", false, false));
    row("by the letter: LF alone", reads(letter, "SSH-2.0-a\n", false, false));
    row("by the letter: 1.99", reads(letter, "SSH-1.99-a\r\n", false, false));
    begin(&s, 20);
    s.client.side.reading = s.server.side.reading = letter;
    meet(&s, 65536);
    row("both sides by the letter", are_authenticated(&s));
}

/* The parts of one side are changed: how its call answers. */
static bool refuses(int server, uint32_t status, uint32_t config) { return is_refusal(call_begin(&s, server), status, config); }

static void configs(void) {
    static uint8_t big[10000];
    static rezdolin_attempt many[65];
    memset(big, 'u', sizeof big);
    begin(&s, 14);
    s.client.side.kex_algorithms = TEXT("");
    row("C1", refuses(0, REZDOLIN_CONFIG, 1));
    begin(&s, 14);
    s.server.methods = TEXT("password,hostbased");
    row("C2", refuses(1, REZDOLIN_CONFIG, 2));
    begin(&s, 14);
    s.client.side.softwareversion = TEXT("two\nlines");
    row("C4", refuses(0, REZDOLIN_CONFIG, 4));
    begin(&s, 14);
    s.plan[0].user = (rezdolin_bytes){big, 256};
    row("C5", refuses(0, REZDOLIN_CONFIG, 5));
    begin(&s, 14);
    s.plan[1].secret = (rezdolin_bytes){big, 1025};
    row("C6", refuses(0, REZDOLIN_CONFIG, 6));
    begin(&s, 14);
    s.server.banner = (rezdolin_bytes){big, 8193};
    row("C7", refuses(1, REZDOLIN_CONFIG, 7));
    begin(&s, 14);
    for (int i = 0; i < 65; i++)
        many[i] = s.plan[1];
    s.client.plan = many;
    s.client.plan_len = 65;
    row("C8", refuses(0, REZDOLIN_CONFIG, 8));
    begin(&s, 14);
    s.server.tries = 0;
    row("C9", refuses(1, REZDOLIN_CONFIG, 9));
    begin(&s, 14);
    s.client.side.cookie.len = 15;
    row("C10", refuses(0, REZDOLIN_CONFIG, 10));
    begin(&s, 14);
    s.server.required = TEXT("password,password");
    row("C12", refuses(1, REZDOLIN_CONFIG, 12));
    rezdolin_bytes *lists[8] = {&s.client.side.kex_algorithms, &s.client.side.encryption_client_to_server,
                                &s.client.side.encryption_server_to_client, &s.client.server_host_key_algorithms,
                                &s.client.side.mac_client_to_server, &s.server.side.kex_algorithms,
                                &s.server.side.encryption_server_to_client, &s.server.side.mac_server_to_client};
    rezdolin_bytes names[8] = {TEXT("curve25519-sha256,mlkem1024nistp384-sha384"), TEXT("aes192-ctr"), TEXT("chacha20-poly1305@openssh.com,none"),
                               TEXT("ssh-ed25519,ecdsa-sha2-nistp256"), TEXT("hmac-sha2-256,umac-64@openssh.com"), TEXT("ecdh-sha2-nistp256"),
                               TEXT("aes256-cbc"), TEXT("hmac-sha1")};
    for (int i = 0; i < 8; i++) {
        begin(&s, 14);
        *lists[i] = names[i];
        row("C13", refuses(i > 4, REZDOLIN_CONFIG, 13));
    }
    begin(&s, 14);
    s.host.algorithm = TEXT("ssh-ed448");
    row("C13 of a host key", refuses(1, REZDOLIN_CONFIG, 13));
    for (size_t len = 0; len <= 64; len += len % 32 == 31 || len % 32 == 0 ? 1 : 30)
        if (len != 32) {
            begin(&s, 14);
            s.plan[0].secret = s.host.key = (rezdolin_bytes){big, len};
            row("C14 of an attempt", refuses(0, REZDOLIN_CONFIG, 14));
            row("C14 of a host key", refuses(1, REZDOLIN_CONFIG, 14));
        }
    begin(&s, 14);
    s.plan[0].algorithm = TEXT("rsa-sha2-512");
    row("C14 of an algorithm that only verifies", refuses(0, REZDOLIN_CONFIG, 14));
    begin(&s, 14);
    s.plan[1].user = TEXT("\xff");
    row("a user that is no UTF-8", refuses(0, REZDOLIN_UNREADABLE, 0));
    begin(&s, 14);
    s.plan[1].method = 4;
    row("a method of no such number", refuses(0, REZDOLIN_UNREADABLE, 0));
    begin(&s, 14);
    s.server.services = TEXT("\xc3");
    row("a service that is no UTF-8", refuses(1, REZDOLIN_UNREADABLE, 0));
}

/* The list of users is this one, a part that a program left out or put in by mistake: it accepts nobody. */
static bool is_no_list(const rezdolin_user *users, size_t count) {
    begin(&s, 18);
    s.plan[0].method = REZDOLIN_METHOD_NONE;
    s.server.users = users;
    s.server.users_len = count;
    bool holds = refuses(SERVER, REZDOLIN_UNREADABLE, 0);
    meet(&s, 65536);
    return holds && s.sides[CLIENT].last.end != REZDOLIN_AUTHENTICATED && s.sides[SERVER].last.end != REZDOLIN_AUTHENTICATED;
}

static void mistakes(void) {
    rezdolin_bytes al = TEXT("al"), secret = TEXT("secret"), none = TEXT("");
    rezdolin_user forgotten[1] = {{.user = al, .proof = secret}}, last[2] = {{al, secret, REZDOLIN_METHOD_PASSWORD}, {none, none, 0}};
    row("a method that was forgotten", is_no_list(forgotten, 1));
    row("an entry past the last", is_no_list(last, 2));
    for (uint32_t method = 3; method; method <<= 3)
        row("a method that has no such number", (last[1] = (rezdolin_user){al, none, method}, is_no_list(last, 2)));
    last[1] = (rezdolin_user){al, secret, REZDOLIN_METHOD_NONE};
    row("none with a proof", is_no_list(last, 2));
    last[1] = (rezdolin_user){al, none, REZDOLIN_METHOD_PASSWORD};
    row("an empty password", is_no_list(last, 2));
    last[1] = (rezdolin_user){al, none, REZDOLIN_METHOD_PUBLICKEY};
    row("an empty key", is_no_list(last, 2));
    last[1] = (rezdolin_user){none, secret, REZDOLIN_METHOD_PASSWORD};
    row("no user", is_no_list(last, 2));
    last[1] = (rezdolin_user){none, none, REZDOLIN_METHOD_NONE};
    row("no user and no proof", is_no_list(last, 2));
    begin(&s, 18);
    s.server.users_len = 0;
    meet(&s, 65536);
    row("no entry", ended(&s, CLIENT, REZDOLIN_FAILED, 14, 0));
    begin(&s, 19);
    s.plan[1].method = 0;
    row("an attempt's method that was forgotten", refuses(0, REZDOLIN_UNREADABLE, 0));
    uint32_t *numbers[4] = {&s.client.guess, &s.client.asks, &s.plan[0].ask, &s.server.asks}, others[3] = {2, 255, 0xffffffff};
    for (int i = 0; i < 12; i++) {
        begin(&s, 19);
        *numbers[i % 4] = others[i / 4];
        row("a yes or no that is neither", refuses(i % 4 == 3, REZDOLIN_UNREADABLE, 0));
    }
    uint32_t *strict[2] = {&s.client.side.strict, &s.server.side.strict}, wrong[3] = {0, 3, 0xffffffff};
    for (int i = 0; i < 6; i++) {
        begin(&s, 19);
        *strict[i % 2] = wrong[i / 2];
        row("a side that doesn't say whether it is strict", refuses(i % 2, REZDOLIN_UNREADABLE, 0));
    }
    uint32_t *reading[2] = {&s.client.side.reading, &s.server.side.reading}, unknown[3] = {2, 255, 0xffffffff};
    for (int i = 0; i < 6; i++) {
        begin(&s, 19);
        *reading[i % 2] = unknown[i / 2];
        row("a reading that has no such number", refuses(i % 2, REZDOLIN_UNREADABLE, 0));
    }
    begin(&s, 19);
    s.client.side.strict = REZDOLIN_STRICT_NO;
    meet(&s, 65536);
    row("a side that isn't strict", are_authenticated(&s) && field(&s, CLIENT, REZDOLIN_STRICT).at[0] == 0);
}

static void records(void) {
    begin(&s, 15);
    meet(&s, 65536);
    bool same = true;
    for (unsigned i = REZDOLIN_SESSION_IDENTIFIER; i <= REZDOLIN_STRICT; i++)
        if (i != REZDOLIN_OWN_VERSION && i != REZDOLIN_PEER_VERSION)
            same = same && equal(field(&s, CLIENT, i), field(&s, SERVER, i));
    row("both records agree", same);
    row("states are crosswise", equal(field(&s, CLIENT, REZDOLIN_INCOMING), field(&s, SERVER, REZDOLIN_OUTGOING))
                                    && equal(field(&s, CLIENT, REZDOLIN_OUTGOING), field(&s, SERVER, REZDOLIN_INCOMING)));
    row("versions are crosswise", equal(field(&s, CLIENT, REZDOLIN_OWN_VERSION), field(&s, SERVER, REZDOLIN_PEER_VERSION))
                                      && is(field(&s, CLIENT, REZDOLIN_PEER_VERSION), "SSH-2.0-rezdolin"));
    row("user and service", is(field(&s, CLIENT, REZDOLIN_USER), "al") && is(field(&s, SERVER, REZDOLIN_SERVICE), "ssh-connection"));
    row("the host key", equal(field(&s, CLIENT, REZDOLIN_SERVER_KEY), s.trusted));
    row("algorithms", is(field(&s, CLIENT, REZDOLIN_AGREED_KEX), "mlkem768x25519-sha256")
                          && is(field(&s, CLIENT, REZDOLIN_AGREED_HOST_KEY), "ssh-ed25519")
                          && is(field(&s, CLIENT, REZDOLIN_AGREED_ENCRYPTION_CLIENT_TO_SERVER), "chacha20-poly1305@openssh.com")
                          && is(field(&s, CLIENT, REZDOLIN_AGREED_COMPRESSION_SERVER_TO_CLIENT), "none"));
    row("strict", field(&s, CLIENT, REZDOLIN_STRICT).len == 1 && field(&s, CLIENT, REZDOLIN_STRICT).at[0] == 1);
    row("there are 20 fields", field(&s, CLIENT, 20).at == NULL);
}

/* Rooms for a call that are one byte too small, in turn: it says what there has to be, and has written nothing but `told`'s first
 * bytes. */
static void rooms(void) {
    static uint8_t record[REZDOLIN_RECORD_ROOM], next[REZDOLIN_RECORD_ROOM], out[65536], told[65536];
    begin(&s, 15);
    s.client.asks = s.server.asks = 1;
    rezdolin_step_answer a = rezdolin_client_begin(&s.client, next, sizeof next, out, sizeof out), b;
    size_t sent = a.sent_len, len = a.record_len;
    row("a first call", a.status == REZDOLIN_ANSWERED && a.end == REZDOLIN_OPEN && sent > 0 && len > 0 && a.used == 0 && a.told_len == 0);
    for (int i = 0; i < 2; i++) {
        next[0] = out[0] = 7;
        a = rezdolin_client_begin(&s.client, next, i ? len - 1 : len, out, i ? sent : sent - 1);
        row("a first call that has no room", is_refusal(a, REZDOLIN_ROOM, 0) && a.sent_len == sent && a.record_len == len && a.told_len == 0
                                                 && next[0] == 7 && out[0] == 7);
    }
    bool holds = true;
    unsigned calls = 0, tells = 0;
    for (bool goes = true; goes;) {
        goes = false;
        for (int server = 0; server < 2; server++)
            for (;;) {
                side *x = &s.sides[server], *y = &s.sides[!server];
                bool asks = x->last.end == REZDOLIN_ASKS;
                if (x->calls == 0) {
                    goes = go(&s, server, 65536);
                    continue;
                }
                if (!asks && (x->last.end != REZDOLIN_OPEN || y->sent_len == x->used))
                    break;
                memcpy(record, x->records[x->now], x->record_len);
                /* what the call comes to, in rooms of all sizes that are enough and not */
                size_t have[3] = {0, 0, 0};
                for (int n = 0; n < 5; n++) {
                    size_t rooms[3] = {have[0] - (n == 2), have[1] - (n == 3), have[2] - (n == 4)};
                    if ((n == 2 && !have[0]) || (n == 3 && !have[1]) || (n == 4 && !have[2]))
                        continue;
                    memset(next, 7, 8), memset(out, 7, 8), memset(told, 7, 8);
                    const uint8_t *piece = y->sent + x->used;
                    size_t piece_len = y->sent_len - x->used;
                    if (asks)
                        b = server ? rezdolin_server_answer(&s.server, record, x->record_len, REZDOLIN_YES, piece, 0, next, rooms[0], out, rooms[1], told, rooms[2])
                                   : rezdolin_client_answer(&s.client, record, x->record_len, REZDOLIN_YES, piece, 0, next, rooms[0], out, rooms[1], told, rooms[2]);
                    else
                        b = server ? rezdolin_server_step(&s.server, record, x->record_len, piece, piece_len, next, rooms[0], out, rooms[1], told, rooms[2])
                                   : rezdolin_client_step(&s.client, record, x->record_len, piece, piece_len, next, rooms[0], out, rooms[1], told, rooms[2]);
                    calls++;
                    if (n == 1) {
                        holds = holds && b.status == REZDOLIN_ANSWERED && b.record_len == have[0] && b.sent_len == have[1] && b.told_len == have[2];
                        tells += have[2] > 0;
                        continue;
                    }
                    holds = holds && is_refusal(b, REZDOLIN_ROOM, 0) && next[0] == 7 && out[0] == 7;
                    for (size_t i = 0; i < 5; i++)
                        holds = holds && told[i] == (i < 4 && i < rooms[2] ? 0 : 7);
                    if (n == 0)
                        have[0] = b.record_len, have[1] = b.sent_len, have[2] = b.told_len;
                    else
                        holds = holds && b.record_len == have[0] && b.sent_len == have[1] && b.told_len == have[2];
                }
                goes = go(&s, server, 65536);
            }
    }
    row("rooms of one byte less", holds && calls > 20 && tells == 5 && are_authenticated(&s));
}

static void cuts(void) {
    static const size_t sizes[5] = {1, 2, 7, 100, 1000};
    begin(&s, 16);
    meet(&s, 65536);
    for (int asks = 0; asks < 2; asks++)
        for (int i = 0; i < 5; i++) {
            begin(&other, 16);
            other.client.asks = other.server.asks = asks;
            meet(&other, sizes[i]);
            row("pieces of any size", are_authenticated(&other) && is_same_talk(&s, &other)
                                          && other.sides[SERVER].questions == 2 * (unsigned)asks && other.sides[CLIENT].questions == (unsigned)asks);
        }
    begin(&s, 16);
    for (int i = 0; !are_authenticated(&s) && i < 100; i++) {
        go(&s, SERVER, 65536);
        if (s.sides[SERVER].last.end == REZDOLIN_AUTHENTICATED)
            s.sides[SERVER].sent[s.sides[SERVER].sent_len++] = 9;
        go(&s, CLIENT, 65536);
    }
    row("a byte that comes after", are_authenticated(&s) && s.sides[CLIENT].used == s.sides[SERVER].sent_len - 1);
    begin(&s, 16);
    go(&s, CLIENT, 1);
    size_t len = s.sides[CLIENT].record_len;
    take(&s, CLIENT, call_step(&s, CLIENT, s.sides[SERVER].sent, 0));
    row("a step of no bytes", ended(&s, CLIENT, REZDOLIN_OPEN, 0, 0) && s.sides[CLIENT].last.sent_len == 0 && s.sides[CLIENT].record_len == len);
}

/* What a peer has sent, with some of it changed: in one piece and in many it comes to the same. */
static void spoiled(void) {
    static uint8_t stream[4096];
    static side whole;
    unsigned fails = 0, same = 0;
    for (unsigned n = 0; n < 200; n++) {
        int server = n % 2;
        begin(&other, 70 + n % 3);
        other.client.asks = other.server.asks = n % 4 / 2;
        meet(&other, 65536);
        size_t len = other.sides[!server].sent_len, at;
        memcpy(stream, other.sides[!server].sent, len);
        srand(n);
        for (int k = rand() % 3; k >= 0; k--) {
            at = (size_t)rand() % len;
            switch (rand() % 4) {
            case 0: stream[at] ^= (uint8_t)(1 << rand() % 8); break;
            case 1: stream[at] = (uint8_t)rand(); break;
            case 2: memmove(stream + at, stream + at + 1, --len - at); break;
            default: memmove(stream + at + 1, stream + at, len++ - at);
            }
        }
        for (int pieces = 0; pieces < 2; pieces++) {
            begin(&s, 70 + n % 3);
            s.client.asks = s.server.asks = n % 4 / 2;
            memcpy(s.sides[!server].sent, stream, s.sides[!server].sent_len = len);
            while (go(&s, server, pieces ? 1 + (size_t)rand() % 50 : 65536)) {
            }
            if (!pieces)
                whole = s.sides[server];
        }
        const side *x = &whole, *y = &s.sides[server];
        fails += y->last.end == REZDOLIN_FAILED;
        same += x->last.status == REZDOLIN_ANSWERED && y->last.status == REZDOLIN_ANSWERED && x->last.end == y->last.end && x->last.fault == y->last.fault
                && x->last.detail == y->last.detail && x->used == y->used && x->questions == y->questions && x->sent_len == y->sent_len
                && memcmp(x->sent, y->sent, x->sent_len) == 0 && x->last.told_len == y->last.told_len && memcmp(x->told, y->told, x->last.told_len) == 0
                && x->record_len == y->record_len && memcmp(x->records[x->now], y->records[y->now], x->record_len) == 0;
    }
    row("changed streams, in one piece and in many", same == 200 && fails > 30);
}

/* Signatures that were made elsewhere: by a pair of sides that has the private keys, and else the same parts. */
static uint8_t by_user[83], by_host[83];
static bool keeps, spoils;
static size_t extra;

/* Opens what the client of a pair sent last, and keeps the signature in it; and finds that of the host key. */
static bool are_kept(const meeting *m) {
    static const char front[] = "\0\0\0\x53\0\0\0\x0bssh-ed25519\0\0\0\x40";
    static uint8_t state[600], payload[REZDOLIN_PACKET_ROOM];
    const side *client = &m->sides[CLIENT], *server = &m->sides[SERVER];
    rezdolin_bytes in = field(m, SERVER, REZDOLIN_INCOMING);
    bool has_user = false, has_host = false;
    for (size_t at = 0; at < client->sent_len && !has_user; at++) {
        memcpy(state, in.at, in.len);
        state[3]--;
        rezdolin_bytes_answer a = rezdolin_open(state, in.len, client->sent + at, client->sent_len - at, payload, sizeof payload);
        if (a.status == REZDOLIN_ANSWERED && a.used == client->sent_len - at && payload[0] == 50) {
            memcpy(by_user, payload + a.len - 83, 83);
            has_user = memcmp(payload + a.len - 87, front, 4) == 0;
        }
    }
    for (size_t at = 0; at + 87 < server->sent_len && !has_host; at++)
        if (memcmp(server->sent + at, front, sizeof front - 1) == 0)
            memcpy(by_host, server->sent + at + 4, 83), has_host = true;
    return has_user && has_host;
}

static uint8_t asked[2][1000];
static size_t asked_len[2];

static reply sign(meeting *m, int server, uint8_t *question, size_t len) {
    static uint8_t given[9000];
    if (!is_byte(field_in(question, len, REZDOLIN_QUESTION_KIND), REZDOLIN_ASKS_SIGNATURE))
        return say_yes(m, server, question, len);
    memcpy(asked[server], question, asked_len[server] = len);
    memcpy(given, server ? by_host : by_user, 83);
    given[82] ^= spoils;
    return keeps ? (reply){REZDOLIN_NO_SIGNATURE, TEXT("")} : (reply){REZDOLIN_SIGNATURE, {given, 83 + extra}};
}

/* Both sides ask, and the private keys of these two are elsewhere. */
static void begin_elsewhere(bool user, bool host, uint32_t ask) {
    begin(&s, 30);
    keeps = spoils = false, extra = 0;
    s.decide = sign;
    s.client.asks = s.server.asks = 1;
    s.plan[0].ask = ask;
    if (user)
        s.plan[0].method = REZDOLIN_METHOD_SIGNED, s.plan[0].secret = s.users[0].proof;
    if (host)
        s.host.place = REZDOLIN_KEY_ELSEWHERE, s.host.key = s.trusted;
}

static void signatures(void) {
    for (uint32_t ask = 0; ask < 2; ask++) {
        begin(&other, 30);
        other.client.asks = other.server.asks = 1;
        other.plan[0].ask = ask;
        meet(&other, 65536);
        row("signatures that were made here", are_authenticated(&other) && are_kept(&other));
        for (int which = 1; which < 4; which++)
            for (size_t size = 1; size < 65536; size += 32767) {
                begin_elsewhere(which & 1, which & 2, ask);
                meet(&s, size);
                row("elsewhere: the same is sent", are_authenticated(&s) && is_same_talk(&s, &other) && s.sides[CLIENT].questions == 1U + (which & 1)
                                                       && s.sides[SERVER].questions == 1U + ask + (which >> 1));
            }
    }
    rezdolin_bytes input = field_in(asked[CLIENT], asked_len[CLIENT], REZDOLIN_QUESTION_INPUT), hash = field_in(asked[SERVER], asked_len[SERVER], REZDOLIN_QUESTION_INPUT);
    row("a client's question for a signature", is(field_in(asked[CLIENT], asked_len[CLIENT], REZDOLIN_QUESTION_ALGORITHM), "ssh-ed25519")
                                                   && equal(field_in(asked[CLIENT], asked_len[CLIENT], REZDOLIN_QUESTION_KEY), s.users[0].proof)
                                                   && is(field_in(asked[CLIENT], asked_len[CLIENT], REZDOLIN_QUESTION_USER), "")
                                                   && is(field_in(asked[CLIENT], asked_len[CLIENT], REZDOLIN_QUESTION_SIGNED), "")
                                                   && input.len > 37 && memcmp(input.at + 4, hash.at, 32) == 0 && input.at[36] == 50);
    row("a server's question for a signature", is(field_in(asked[SERVER], asked_len[SERVER], REZDOLIN_QUESTION_ALGORITHM), "ssh-ed25519")
                                                   && equal(field_in(asked[SERVER], asked_len[SERVER], REZDOLIN_QUESTION_KEY), s.trusted)
                                                   && equal(hash, field(&s, CLIENT, REZDOLIN_SESSION_IDENTIFIER)));
    begin_elsewhere(true, false, 1);
    keeps = true;
    meet(&s, 65536);
    row("no signature of a client: none, and then its password", ended(&s, CLIENT, REZDOLIN_AUTHENTICATED, 0, 0) && s.sides[SERVER].questions == 2);
    begin_elsewhere(true, false, 1);
    keeps = true;
    s.server.asks = 0;
    s.client.plan_len = 1;
    meet(&s, 65536);
    row("no signature, and nothing else", ended(&s, CLIENT, REZDOLIN_FAILED, 14, 0) && ended(&s, SERVER, REZDOLIN_CLOSED, 0, 14));
    begin_elsewhere(true, false, 0);
    spoils = true;
    meet(&s, 65536);
    row("a wrong signature of a client, about which nobody is asked", are_authenticated(&s) && is_byte(field(&s, SERVER, REZDOLIN_BY_PASSWORD), 1)
                                                                          && s.sides[SERVER].questions == 1);
    begin_elsewhere(true, false, 0);
    extra = 8192 - 83;
    meet(&s, 65536);
    row("a signature with bytes after it", are_authenticated(&s) && is_byte(field(&s, SERVER, REZDOLIN_BY_PASSWORD), 1)
                                               && s.sides[SERVER].questions == 1);
    begin_elsewhere(true, false, 0);
    extra = 8193 - 83;
    s.server.asks = 0;
    meet(&s, 65536);
    row("one of more than 8192 bytes is none", are_authenticated(&s) && is_byte(field(&s, SERVER, REZDOLIN_BY_PASSWORD), 1));
    begin_elsewhere(false, true, 0);
    keeps = true;
    meet(&s, 65536);
    row("no signature of a server", ended(&s, SERVER, REZDOLIN_FAILED, 9, 0) && ended(&s, CLIENT, REZDOLIN_CLOSED, 0, 3));
    begin_elsewhere(false, true, 0);
    spoils = true;
    meet(&s, 65536);
    row("a wrong signature of a server", ended(&s, CLIENT, REZDOLIN_FAILED, 11, 0) && ended(&s, SERVER, REZDOLIN_CLOSED, 0, 3));
}

/* Keys that aren't where they are said to be. */
static void places(void) {
    begin_elsewhere(true, true, 0);
    s.client.asks = s.server.asks = 0;
    row("elsewhere, and nobody is asked", refuses(CLIENT, REZDOLIN_UNREADABLE, 0) && refuses(SERVER, REZDOLIN_UNREADABLE, 0));
    begin_elsewhere(true, true, 0);
    s.plan[0].secret = (rezdolin_bytes){s.user_secret, 32};
    s.host.key = (rezdolin_bytes){s.host_secret, 32};
    row("a private key that is said to be elsewhere", refuses(CLIENT, REZDOLIN_CONFIG, 14) && refuses(SERVER, REZDOLIN_CONFIG, 14));
    begin_elsewhere(false, false, 0);
    s.plan[0].secret = s.users[0].proof;
    s.host.key = s.trusted;
    row("a public key that is said to be private", refuses(CLIENT, REZDOLIN_CONFIG, 14) && refuses(SERVER, REZDOLIN_CONFIG, 14));
    for (uint32_t place = 0; place < 4; place += place ? 2 : 3) {
        begin(&s, 31);
        s.host.place = place;
        row("a place that is none", refuses(SERVER, REZDOLIN_UNREADABLE, 0));
    }
    begin(&s, 31);
    s.users[0].method = REZDOLIN_METHOD_SIGNED;
    row("an entry that signs", refuses(SERVER, REZDOLIN_UNREADABLE, 0));
}

static void disconnects(void) {
    static uint8_t opened[REZDOLIN_PACKET_ROOM];
    rezdolin_bytes word = TEXT("going");
    for (int server = 0; server < 2; server++)
        for (int calls = 1; calls < 5; calls++) {
            begin(&s, 40);
            s.client.asks = s.server.asks = 1;
            while (s.sides[server].calls < (unsigned)calls) {
                go(&s, !server, 65536);
                go(&s, server, 65536);
            }
            take(&s, server, call_disconnect(&s, server, 11, word));
            bool said = ended(&s, server, REZDOLIN_DISCONNECTED, 0, 11) && s.sides[server].last.sent_len > 0 && s.sides[server].record_len == 0;
            meet(&s, 65536);
            row("a side that disconnects", said && ended(&s, !server, REZDOLIN_CLOSED, 0, 11));
            row("and then has no record", is_refusal(call_disconnect(&s, server, 11, word), REZDOLIN_RECORD, 0)
                                              && is_refusal(call_step(&s, server, opened, 0), REZDOLIN_RECORD, 0));
        }
    begin(&s, 40);
    go(&s, CLIENT, 1);
    row("a description that is no UTF-8", is_refusal(call_disconnect(&s, CLIENT, 11, TEXT("\xff")), REZDOLIN_UNREADABLE, 0));
    rezdolin_step_answer a = rezdolin_client_disconnect(&s.client, s.sides[CLIENT].records[s.sides[CLIENT].now], s.sides[CLIENT].record_len, 11, word.at, word.len, opened, 10);
    row("no room for a DISCONNECT", is_refusal(a, REZDOLIN_ROOM, 0) && a.sent_len > 10 && a.record_len == 0);
}

static void packets(const char *cipher) {
    static uint8_t payload[32769], opened[REZDOLIN_PACKET_ROOM], packet[REZDOLIN_PACKET_ROOM];
    size_t len;
    begin(&s, 17);
    rezdolin_bytes name = {(const uint8_t *)cipher, strlen(cipher)};
    s.client.side.encryption_client_to_server = s.client.side.encryption_server_to_client = name;
    s.server.side.encryption_client_to_server = s.server.side.encryption_server_to_client = name;
    meet(&s, 65536);
    for (size_t i = 0; i < sizeof payload; i++)
        payload[i] = (uint8_t)(i * 7);
    bool same = are_authenticated(&s);
    for (int i = 0; i < 200; i++) {
        size_t count = i == 0 ? 32768 : (size_t)(1 + i * 3);
        same = same && pass(&s, i & 1, payload, count, opened, &len) == 0 && len == count && memcmp(opened, payload, len) == 0;
    }
    row("packets both ways", same);
    row("an empty payload", pass(&s, 0, payload, 0, opened, &len) == REZDOLIN_PAYLOAD);
    row("a payload that is too long", pass(&s, 0, payload, 32769, opened, &len) == REZDOLIN_PAYLOAD);
    rezdolin_bytes out = field(&s, CLIENT, REZDOLIN_OUTGOING), in = field(&s, SERVER, REZDOLIN_INCOMING);
    uint8_t *state = (uint8_t *)out.at, *at = (uint8_t *)in.at, before[600];
    memcpy(before, state, out.len);
    rezdolin_bytes_answer a = rezdolin_seal(state, out.len, s.drawn[0] + 80, 32, payload, 40, packet, 10);
    row("no room for a packet", a.status == REZDOLIN_ROOM && a.len > 40 && memcmp(before, state, out.len) == 0);
    a = rezdolin_seal(state, out.len, s.drawn[0] + 80, 31, payload, 40, packet, sizeof packet);
    row("a seed of 31 bytes", a.status == REZDOLIN_UNREADABLE);
    a = rezdolin_seal(state, out.len - 1, s.drawn[0] + 80, 32, payload, 40, packet, sizeof packet);
    row("no state", a.status == REZDOLIN_UNREADABLE && memcmp(before, state, out.len) == 0);
    a = rezdolin_seal(state, out.len, s.drawn[0] + 80, 32, payload, 40, packet, sizeof packet);
    memcpy(before, at, in.len);
    rezdolin_bytes_answer more = rezdolin_open(at, in.len, packet, a.len - 1, opened, sizeof opened);
    row("a packet that isn't all there", more.status == REZDOLIN_MORE && memcmp(before, at, in.len) == 0);
    more = rezdolin_open(at, in.len, packet, a.len, opened, 39);
    row("no room for a payload", more.status == REZDOLIN_ROOM && more.len == 40 && memcmp(before, at, in.len) == 0);
    packet[a.len - 1] ^= 1;
    more = rezdolin_open(at, in.len, packet, a.len, opened, sizeof opened);
    row("a tag that is wrong", more.status == REZDOLIN_PACKET && more.fault == 4 && memcmp(before, at, in.len) == 0);
    packet[a.len - 1] ^= 1;
    more = rezdolin_open(at, in.len, packet, a.len, opened, sizeof opened);
    row("then the right one", more.status == 0 && more.len == 40 && memcmp(before, at, in.len) != 0);
    state[4] = 0x80;
    a = rezdolin_seal(state, out.len, s.drawn[0] + 80, 32, payload, 40, packet, sizeof packet);
    row("a state that is used up", a.status == REZDOLIN_USED_UP);
    state[4] = 0;
    state[11] = 8;
    a = rezdolin_seal(state, out.len, s.drawn[0] + 80, 32, payload, 40, packet, sizeof packet);
    row("a state that is used up by bytes", a.status == REZDOLIN_USED_UP);
    memcpy(before, state, 8);
    memcpy(before + 8, state + 16, out.len - 16);
    a = rezdolin_seal(before, out.len - 8, s.drawn[0] + 80, 32, payload, 40, packet, sizeof packet);
    row("a state that counts no bytes", a.status == REZDOLIN_UNREADABLE);
}

int main(void) {
    methods();
    refusals();
    readings();
    configs();
    mistakes();
    records();
    rooms();
    cuts();
    spoiled();
    signatures();
    places();
    disconnects();
    packets("chacha20-poly1305@openssh.com");
    packets("aes256-gcm@openssh.com");
    packets("aes128-gcm@openssh.com");
    packets("aes256-ctr");
    packets("aes128-ctr");
    return counted();
}
