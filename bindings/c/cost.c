/* What calls cost: a session of both sides, the same in pieces of one byte, single calls, a server that is flooded, a large packet byte
 * by byte, a server with many users, and a packet that is sealed and opened; and the largest record of each. By hand; docs/BENCH.md has
 * figures. */
#include "meet.h"
#include <time.h>

static meeting m;
static size_t largest;

/* Of a processor, so what else runs weighs little. */
static double milliseconds(void) { return (double)clock() * 1000 / CLOCKS_PER_SEC; }

static void keep_largest(void) {
    for (int i = 0; i < 2; i++)
        if (m.sides[i].largest > largest)
            largest = m.sides[i].largest;
}

/* Sessions of both sides, in pieces of this many bytes. */
static void sessions(size_t size, int times, uint32_t asks) {
    unsigned calls = 0;
    double from = milliseconds();
    for (int i = 0; i < times; i++) {
        begin(&m, 1);
        m.client.asks = m.server.asks = asks;
        meet(&m, size);
        calls = m.sides[0].calls + m.sides[1].calls;
    }
    keep_largest();
    printf("a session, both sides, %s, pieces of %zu: %u calls, %.2f ms%s\n", asks ? "by questions" : "by lists", size, calls, (milliseconds() - from) / times,
           are_authenticated(&m) ? "" : " NOT AUTHENTICATED");
}

/* One side alone, fed with what the other side of a session sent, in pieces of this many bytes. */
static void alone(int server, size_t size, int times) {
    static uint8_t records[2][REZDOLIN_RECORD_ROOM], out[65536], told[REZDOLIN_TOLD_ROOM];
    begin(&m, 1);
    meet(&m, 65536);
    const side *peer = &m.sides[!server];
    unsigned calls = 0;
    rezdolin_step_answer a = {0};
    double from = milliseconds();
    for (int i = 0; i < times; i++) {
        int now = 0;
        calls = 1;
        a = server ? rezdolin_server_begin(&m.server, records[0], sizeof records[0], out, sizeof out) : rezdolin_client_begin(&m.client, records[0], sizeof records[0], out, sizeof out);
        for (size_t at = 0; at < peer->sent_len && a.end == REZDOLIN_OPEN; at += a.used, now = !now, calls++) {
            size_t len = peer->sent_len - at < size ? peer->sent_len - at : size;
            a = server ? rezdolin_server_step(&m.server, records[now], a.record_len, peer->sent + at, len, records[!now], sizeof records[0], out, sizeof out, told, sizeof told)
                       : rezdolin_client_step(&m.client, records[now], a.record_len, peer->sent + at, len, records[!now], sizeof records[0], out, sizeof out, told, sizeof told);
        }
    }
    printf("a %s alone, %zu bytes in pieces of %zu: %u calls, %.2f ms%s\n", server ? "server" : "client", peer->sent_len, size, calls, (milliseconds() - from) / times,
           a.end == REZDOLIN_AUTHENTICATED ? "" : " NOT AUTHENTICATED");
}

/* A client that has keys sends messages that say nothing, each of `size` bytes, in pieces of `piece` bytes, after its request for a
 * service: what the server's calls on them cost. */
static void flood(unsigned size, size_t piece, size_t total) {
    static uint8_t received[262144], ignored[32768];
    size_t len = 0, before[2] = {0, 0};
    begin(&m, 1);
    while (!are_authenticated(&m)) {
        before[0] = before[1], before[1] = m.sides[CLIENT].sent_len;
        go(&m, SERVER, 65536), go(&m, CLIENT, 65536);
    }
    uint8_t state[600];
    rezdolin_bytes out = field(&m, CLIENT, REZDOLIN_OUTGOING);
    memcpy(state, out.at, out.len);
    memcpy(state, "\0\0\0\1", 4);
    ignored[0] = 2, ignored[3] = (uint8_t)((size - 5) >> 8), ignored[4] = (uint8_t)(size - 5);
    for (rezdolin_bytes_answer sealed; len < total; len += sealed.len) {
        sealed = rezdolin_seal(state, out.len, m.drawn[0] + 80, 32, ignored, size, received + len, sizeof received - len);
        if (sealed.status != REZDOLIN_ANSWERED)
            break;
    }
    /* a server that has used the request for a service */
    begin(&m, 1);
    while (m.sides[SERVER].calls < 4)
        go(&m, SERVER, 65536), go(&m, CLIENT, 65536);
    unsigned calls = 0;
    double from = milliseconds();
    for (size_t at = 0; at < len && m.sides[SERVER].last.end == REZDOLIN_OPEN; at += m.sides[SERVER].last.used, calls++)
        take(&m, SERVER, call_step(&m, SERVER, received + at, len - at < piece ? len - at : piece));
    double took = milliseconds() - from;
    keep_largest();
    printf("a server at %zu bytes of payloads of %u, pieces of %zu: %u calls, %.1f ms, record up to %zu%s\n", len, size, piece, calls, took, m.sides[SERVER].largest,
           m.sides[SERVER].last.end == REZDOLIN_OPEN && m.sides[SERVER].last.status == 0 ? "" : " NOT ALL READ");
}

/* One step of a server with so many users in its list. */
static void users(size_t count) {
    static rezdolin_user entries[100000];
    static uint8_t piece[1];
    begin(&m, 1);
    for (size_t i = 0; i < count; i++)
        entries[i] = m.users[0];
    m.server.users = entries, m.server.users_len = count;
    go(&m, SERVER, 1);
    double from = milliseconds();
    for (int i = 0; i < 20; i++)
        take(&m, SERVER, call_step(&m, SERVER, piece, 0));
    printf("a server's step by no bytes, %zu users: %.3f ms\n", count, (milliseconds() - from) / 20);
}

int main(void) {
    static uint8_t payload[32768], opened[REZDOLIN_PACKET_ROOM];
    sessions(65536, 50, 0), sessions(65536, 50, 1), sessions(100, 20, 0), sessions(1, 10, 0);
    for (int server = 0; server < 2; server++)
        alone(server, 65536, 50), alone(server, 1, 10);
    printf("the largest record so far: %zu bytes\n", largest);
    flood(5, 65536, 130000), flood(5, 100, 100000), flood(32768, 65536, 229000);
    flood(32768, 4096, 229000), flood(32768, 100, 98000), flood(32768, 1, 32000);
    users(2), users(1000), users(100000);
    size_t sizes[] = {100, 32768}, len;
    begin(&m, 1);
    meet(&m, 65536);
    for (int i = 0; i < 2; i++) {
        double from = milliseconds();
        for (int k = 0; k < 100; k++)
            pass(&m, 0, payload, sizes[i], opened, &len);
        printf("a packet of %zu bytes, sealed and opened: %.3f ms\n", sizes[i], (milliseconds() - from) / 100);
    }
    printf("the largest record: %zu bytes\n", largest);
    return 0;
}
