/* Sessions by lists, by questions, and by signatures that are asked for, each with its Nth growth of memory refused, for each N: a call
 * that ran out of memory is made again, so the session ends authenticated, and a packet passes. With a word, a number, only as many
 * as that apart are tried. Link it with -Wl,--wrap=malloc,--wrap=realloc. */
#include "meet.h"

static unsigned long refused_at, seen;

void *__real_malloc(size_t size);
void *__real_realloc(void *at, size_t size);
void *__wrap_malloc(size_t size);
void *__wrap_realloc(void *at, size_t size);

void *__wrap_malloc(size_t size) { return ++seen == refused_at ? NULL : __real_malloc(size); }

void *__wrap_realloc(void *at, size_t size) { return ++seen == refused_at ? NULL : __real_realloc(at, size); }

/* Yes, and no signature. */
static reply refuse(meeting *m, int server, uint8_t *question, size_t len) {
    bool signs = is_byte(field_in(question, len, REZDOLIN_QUESTION_KIND), REZDOLIN_ASKS_SIGNATURE);
    return signs ? (reply){REZDOLIN_NO_SIGNATURE, TEXT("")} : say_yes(m, server, question, len);
}

/* A session and a packet: whether it ended as it has to. */
static bool passes(int kind, size_t size) {
    static meeting m;
    static uint8_t opened[REZDOLIN_PACKET_ROOM];
    size_t len = 0;
    begin(&m, 7);
    m.client.asks = m.server.asks = kind > 0;
    m.decide = refuse;
    if (kind < 2)
        m.server.required = TEXT("publickey,password");
    else
        m.plan[0].method = REZDOLIN_METHOD_SIGNED, m.plan[0].secret = m.users[0].proof;
    meet(&m, size);
    return are_authenticated(&m) && pass(&m, CLIENT, (const uint8_t *)"hello", 5, opened, &len) == 0 && len == 5
           && memcmp(opened, "hello", 5) == 0;
}

int main(int argc, char **argv) {
    static const char *const kinds[3] = {"lists", "questions", "signatures"};
    unsigned long apart = argc > 1 ? strtoul(argv[1], NULL, 10) : 1;
    for (int kind = 0; kind < 3; kind++)
        for (size_t size = 65536; size >= 400; size = size == 65536 ? 400 : 0)
            for (unsigned long n = 1;; n += apart > 0 ? apart : 1) {
                refused_at = n;
                seen = 0;
                bool is_well = passes(kind, size);
                if (seen < n)
                    break;
                passed += is_well;
                failed += !is_well;
                if (!is_well)
                    printf("FAILED: growth %lu of a session by %s, %zu bytes at a time\n", n, kinds[kind], size);
            }
    return counted() || passed == 0;
}
