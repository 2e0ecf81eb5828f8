/* A client over TCP: it authenticates by a key from OpenSSH's file, and prints how that ended.
 *
 *     client_by_key HOST PORT USER IDENTITY HOST-KEY
 *
 * IDENTITY is a file that `ssh-keygen -t ed25519` wrote without a passphrase. HOST-KEY is the only host key that is trusted: the second
 * word of its .pub file, or the last one of its line in known_hosts. The status is 0 if the user is authenticated, else 1; standard
 * error has the reason. */
#define _DEFAULT_SOURCE
#include "session.h"
#include <netdb.h>
#include <signal.h>
#include <stdbool.h>
#include <stdio.h>
#include <sys/random.h>

enum { SECONDS = 60, TEXT_ROOM = 65536, KEY_LEN = 32, BLOB_LEN = 51 };

/* Why a text has no private key that can be used, by its number. */
static const char *const faults[] = {"it can't be read", "it is no private key", "it is a public key", "it isn't in OpenSSH's form",
                                     "it has a passphrase", "it is a key of RSA", "it is a key of ECDSA", "it is a key of another kind",
                                     "it has several keys, or none", "it ends too early", "its public key isn't that of its private one",
                                     "its padding is wrong"};
static session s;

/* Ends the program: no call of the library knows the time. */
static void give_up(int number) {
    static const char why[] = "client_by_key: the server takes too long\n";
    ssize_t written = write(2, why, sizeof why - 1);
    (void)number, (void)written;
    _exit(1);
}

/* Prints why a thing can't be used, and answers false. */
static bool refused(const char *thing, const char *why) {
    fprintf(stderr, "client_by_key: %s: %s\n", thing, why);
    return false;
}

/* Reads the private key in a file. */
static bool read_key(const char *path, uint8_t key[KEY_LEN]) {
    static uint8_t text[TEXT_ROOM];
    FILE *file = fopen(path, "rb");
    if (!file)
        return refused(path, "it can't be opened");
    setvbuf(file, NULL, _IONBF, 0); /* no copy of the key stays in a buffer */
    size_t len = fread(text, 1, sizeof text, file);
    bool is_read = !ferror(file);
    fclose(file);
    rezdolin_bytes_answer a = rezdolin_read_identity(text, len, key, KEY_LEN);
    rezdolin_wipe(text, sizeof text);
    if (!is_read || a.status != REZDOLIN_ANSWERED)
        return refused(path, a.status == REZDOLIN_MEMORY ? "memory ran out" : faults[is_read ? a.fault : 0]);
    return true;
}

/* Decodes the 68 digits of base64 that a .pub file has of a public key of ssh-ed25519. */
static bool read_blob(const char *digits, uint8_t blob[BLOB_LEN]) {
    static const char all[] = "ABCDEFGHIJKLMNOPQRSTUVWXYZabcdefghijklmnopqrstuvwxyz0123456789+/";
    const char *digit = all;
    uint32_t bits = 0;
    for (size_t n = 0; digit && n < 68; n++) {
        digit = digits[n] ? strchr(all, digits[n]) : NULL;
        bits = bits << 6 | (uint32_t)(digit ? digit - all : 0);
        if (n % 4 == 3)
            blob[n / 4 * 3] = (uint8_t)(bits >> 16), blob[n / 4 * 3 + 1] = (uint8_t)(bits >> 8), blob[n / 4 * 3 + 2] = (uint8_t)bits;
    }
    return (digit && !digits[68] && memcmp(blob, "\0\0\0\x0bssh-ed25519\0\0\0\x20", 19) == 0)
           || refused("HOST-KEY", "it is no public key of ssh-ed25519");
}

/* A socket that is connected to a host, or -1. */
static int connected(const char *host, const char *port) {
    struct addrinfo wanted = {.ai_socktype = SOCK_STREAM}, *found = NULL;
    int end = -1, fault = getaddrinfo(host, port, &wanted, &found);
    for (struct addrinfo *at = fault ? NULL : found; at && end < 0; at = at->ai_next) {
        end = socket(at->ai_family, at->ai_socktype, at->ai_protocol);
        if (end >= 0 && connect(end, at->ai_addr, at->ai_addrlen) != 0)
            close(end), end = -1;
    }
    if (found)
        freeaddrinfo(found);
    if (end < 0)
        refused(host, fault ? gai_strerror(fault) : "no connection");
    return end;
}

/* Prints how the client ended, and answers whether the user is authenticated. */
static bool tell(const rezdolin_step_answer *a) {
    size_t user_len, peer_len;
    const uint8_t *user = rezdolin_field(s.told, a->told_len, REZDOLIN_USER, &user_len),
                  *peer = rezdolin_field(s.told, a->told_len, REZDOLIN_PEER_VERSION, &peer_len);
    bool is_authenticated = a->status == REZDOLIN_ANSWERED && a->end == REZDOLIN_AUTHENTICATED;
    if (is_authenticated)
        printf("%.*s at %.*s\n", (int)user_len, (const char *)user, (int)peer_len, (const char *)peer);
    else if (a->status != REZDOLIN_ANSWERED)
        fprintf(stderr, "client_by_key: no answer: status %u, C%u\n", a->status, a->config);
    else if (a->end == REZDOLIN_FAILED && a->fault == 10)
        fprintf(stderr, "client_by_key: F10: the host key isn't trusted\n");
    else if (a->end == REZDOLIN_FAILED && a->fault == 14)
        fprintf(stderr, "client_by_key: F14: the server doesn't accept the key\n");
    else if (a->end == REZDOLIN_FAILED)
        fprintf(stderr, "client_by_key: F%u %u\n", a->fault, a->detail);
    else if (a->end == REZDOLIN_CLOSED)
        fprintf(stderr, "client_by_key: the server disconnected, reason %u\n", a->detail);
    else
        fprintf(stderr, "client_by_key: the server has gone\n");
    return is_authenticated;
}

/* Authenticates over a socket. */
static bool authenticate(int end, const char *user, rezdolin_bytes key, const rezdolin_bytes *host_key) {
    uint8_t drawn[80];
    if (getentropy(drawn, sizeof drawn) != 0)
        return refused("random bytes", "there are none");
    rezdolin_bytes ciphers = REZDOLIN_TEXT(REZDOLIN_CIPHERS), macs = REZDOLIN_TEXT(REZDOLIN_MACS);
    rezdolin_attempt attempt = {.user = {(const uint8_t *)user, strlen(user)}, .service = REZDOLIN_TEXT("ssh-connection"),
                                .algorithm = REZDOLIN_TEXT(REZDOLIN_HOST_KEY), .secret = key,
                                .method = REZDOLIN_METHOD_PUBLICKEY, .ask = 1};
    rezdolin_client_input client = {
        .side = {REZDOLIN_TEXT("rezdolin"), REZDOLIN_TEXT(""), REZDOLIN_TEXT(REZDOLIN_KEX), ciphers, ciphers, macs, macs,
                 {drawn, 16}, {drawn + 16, 32}, {drawn + 48, 32}, REZDOLIN_STRICT_YES, REZDOLIN_READING_DEPLOYED},
        .server_host_key_algorithms = REZDOLIN_TEXT(REZDOLIN_HOST_KEY),
        .plan = &attempt, .plan_len = 1, .trusted_host_keys = host_key, .trusted_host_keys_len = 1};
    rezdolin_step_answer a = carry(&s, &client, end, NULL);
    bool is_authenticated = tell(&a);
    rezdolin_wipe(drawn, sizeof drawn);
    rezdolin_wipe(s.told, sizeof s.told);
    return is_authenticated;
}

int main(int argc, char **argv) {
    uint8_t key[KEY_LEN], blob[BLOB_LEN];
    bool is_authenticated = false;
    if (argc != 6)
        return !refused("words", "HOST PORT USER IDENTITY HOST-KEY");
    signal(SIGALRM, give_up);
    alarm(SECONDS);
    if (read_blob(argv[5], blob) && read_key(argv[4], key)) {
        int end = connected(argv[1], argv[2]);
        if (end >= 0) {
            is_authenticated = authenticate(end, argv[3], (rezdolin_bytes){key, KEY_LEN}, &(rezdolin_bytes){blob, BLOB_LEN});
            close(end);
        }
    }
    rezdolin_wipe(key, sizeof key);
    return is_authenticated ? 0 : 1;
}
