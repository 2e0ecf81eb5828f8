/* What a server's steps do where a secret decides, for valgrind's callgrind, which counts their instructions.
 *
 *     counted user | other | first | last
 *
 * user, other: a client tries a wrong password of 1000 bytes, as the user of the server's list or under another name. first, last: a step
 * goes by a record whose digest of the parts is wrong in its first byte or in its last one. Of each pair the counts have to be the same,
 * since who sends a password may see the time. scripts/c_library compares them. */
#include "meet.h"

enum { DIGEST_AT = 4, DIGEST_LEN = 32 };

static meeting m;

/* A wrong password in the name of a user. */
static bool is_refused(const char *user) {
    static uint8_t stored[1000], presented[1000];
    memset(stored, 's', sizeof stored), memset(presented, 'p', sizeof presented);
    m.plan[1].user = (rezdolin_bytes){(const uint8_t *)user, strlen(user)};
    m.plan[1].secret = (rezdolin_bytes){presented, sizeof presented};
    m.users[1].proof = (rezdolin_bytes){stored, sizeof stored};
    m.client.plan = &m.plan[1], m.client.plan_len = 1;
    m.server.users = &m.users[1], m.server.users_len = 1;
    meet(&m, 65536);
    return ended(&m, CLIENT, REZDOLIN_FAILED, 14, 0) && ended(&m, SERVER, REZDOLIN_CLOSED, 0, 14);
}

/* A record whose digest has another byte at this place. */
static bool is_of_others(size_t place) {
    go(&m, CLIENT, 65536), go(&m, SERVER, 65536), go(&m, SERVER, 65536);
    m.sides[SERVER].records[m.sides[SERVER].now][DIGEST_AT + place] ^= 1;
    return is_refusal(call_step(&m, SERVER, m.sides[CLIENT].sent, 0), REZDOLIN_PARTS, 0);
}

int main(int argc, char **argv) {
    const char *word = argc == 2 ? argv[1] : "";
    begin(&m, 1);
    bool holds = strcmp(word, "user") == 0    ? is_refused("al")
                 : strcmp(word, "other") == 0 ? is_refused("zz")
                 : strcmp(word, "first") == 0 ? is_of_others(0)
                                              : strcmp(word, "last") == 0 && is_of_others(DIGEST_LEN - 1);
    puts(holds ? "refused" : "NOT REFUSED");
    return !holds;
}
