/* A server of many connections at once, over TCP: it accepts one user by a password, greets the user and closes. Each connection has
 * its record in a table, in as many bytes as it has; all of them share the rooms of the calls.
 *
 *     serve PORT KEY-FILE USER PASSWORD-FILE
 *
 * KEY-FILE has the 32 bytes of the private host key, PASSWORD-FILE the 1 to 1024 bytes of the password. With 0 for PORT the system
 * picks one; the first line that it prints is the port. Then it prints a line for each connection that ends. It listens on 127.0.0.1
 * alone, until it is killed. Its status is 2 where it can't begin. */
#define _DEFAULT_SOURCE
#include "rezdolin.h"
#include <arpa/inet.h>
#include <fcntl.h>
#include <poll.h>
#include <stdbool.h>
#include <stdio.h>
#include <stdlib.h>
#include <string.h>
#include <sys/random.h>
#include <sys/socket.h>
#include <time.h>
#include <unistd.h>

#define CONNECTIONS 256
#define SECONDS 60 /* in which a client has to authenticate */

/* One connection. Its end is -1 where there is none. */
typedef struct connection {
    int end;
    time_t until;
    uint8_t drawn[112];
    uint8_t *record; /* none once the endpoint has ended */
    size_t record_len;
    uint8_t *unsent; /* what the socket hasn't taken yet */
    size_t unsent_len;
} connection;

static connection table[CONNECTIONS];
static uint8_t next[REZDOLIN_RECORD_ROOM], out[REZDOLIN_OUT_ROOM], told[REZDOLIN_TOLD_ROOM];
static rezdolin_host_key host_key = {REZDOLIN_TEXT(REZDOLIN_HOST_KEY), {0}, REZDOLIN_KEY_HERE};
static rezdolin_user user = {.method = REZDOLIN_METHOD_PASSWORD};
static const rezdolin_bytes none = REZDOLIN_TEXT("");

/* The parts of a connection: the same in all its calls. */
static rezdolin_server_input parts_of(const connection *c) {
    rezdolin_bytes ciphers = REZDOLIN_TEXT(REZDOLIN_CIPHERS), macs = REZDOLIN_TEXT(REZDOLIN_MACS);
    return (rezdolin_server_input){
        .side = {REZDOLIN_TEXT("rezdolin"), none, REZDOLIN_TEXT(REZDOLIN_KEX), ciphers, ciphers, macs, macs, {c->drawn, 16},
                 {c->drawn + 16, 32}, {c->drawn + 48, 32}, REZDOLIN_STRICT_YES, REZDOLIN_READING_DEPLOYED},
        .host_keys = &host_key, .host_keys_len = 1, .services = REZDOLIN_TEXT("ssh-connection"), .methods = REZDOLIN_TEXT("password"),
        .required = none, .banner = none, .notice_lines = &none, .notice_lines_len = 0, .users = &user, .users_len = 1, .tries = 6};
}

/* Puts these bytes in the place of the old ones, which are overwritten. */
static bool keep(uint8_t **place, size_t *len, const uint8_t *at, size_t count) {
    uint8_t *copy = count > 0 ? malloc(count) : NULL;
    if (count > 0 && !copy)
        return false;
    if (copy)
        memcpy(copy, at, count);
    if (*place)
        rezdolin_wipe(*place, *len);
    free(*place);
    *place = copy, *len = count;
    return true;
}

static void end_connection(connection *c, const char *why, uint32_t number) {
    printf("%s %u\n", why, number);
    fflush(stdout);
    close(c->end);
    keep(&c->record, &c->record_len, NULL, 0);
    keep(&c->unsent, &c->unsent_len, NULL, 0);
    rezdolin_wipe(c->drawn, sizeof c->drawn);
    c->end = -1;
}

/* Sends what the socket takes, and keeps what it doesn't. */
static bool send_some(connection *c, const uint8_t *at, size_t count) {
    ssize_t n = send(c->end, at, count, MSG_NOSIGNAL);
    size_t sent = n > 0 ? (size_t)n : 0;
    return keep(&c->unsent, &c->unsent_len, at + sent, count - sent);
}

/* The packet that greets an authenticated user, a DISCONNECT, after what stands in `out`. */
static size_t greet(const connection *c, size_t told_len, size_t at) {
    uint8_t payload[300] = {1, 0, 0, 0, 11};
    size_t state_len, name_len;
    const uint8_t *name = rezdolin_field(told, told_len, REZDOLIN_USER, &name_len);
    uint8_t *state = rezdolin_field(told, told_len, REZDOLIN_OUTGOING, &state_len);
    payload[8] = (uint8_t)(6 + name_len); /* the list has this user alone, whose name has at most 200 bytes */
    memcpy(payload + 9, "hello ", 6);
    memcpy(payload + 15, name, name_len);
    rezdolin_bytes_answer a = rezdolin_seal(state, state_len, c->drawn + 80, 32, payload, 19 + name_len, out + at, sizeof out - at);
    return at + (a.status == REZDOLIN_ANSWERED ? a.len : 0);
}

/* Takes what a call answered: the record is kept before anything is sent. */
static void go_on(connection *c, rezdolin_step_answer a) {
    if (a.status != REZDOLIN_ANSWERED) { /* memory ran out: this connection ends, the others go on */
        end_connection(c, "status", a.status);
        return;
    }
    size_t count = a.end == REZDOLIN_AUTHENTICATED ? greet(c, a.told_len, a.sent_len) : a.sent_len;
    bool is_kept = keep(&c->record, &c->record_len, next, a.record_len) && send_some(c, out, count);
    rezdolin_wipe(next, a.record_len);
    rezdolin_wipe(told, a.told_len);
    if (!is_kept)
        end_connection(c, "status", REZDOLIN_MEMORY);
    else if (a.end == REZDOLIN_AUTHENTICATED)
        puts("authenticated");
    else if (a.end != REZDOLIN_OPEN)
        printf("end %u: F%u %u\n", a.end, a.fault, a.detail);
}

static void accept_one(int listening) {
    int end = accept(listening, NULL, NULL);
    connection *c = table;
    while (c < table + CONNECTIONS && c->end >= 0)
        c++;
    if (end < 0 || c == table + CONNECTIONS || getentropy(c->drawn, sizeof c->drawn) != 0) {
        if (end >= 0)
            close(end);
        return;
    }
    fcntl(end, F_SETFL, O_NONBLOCK);
    c->end = end, c->until = time(NULL) + SECONDS;
    rezdolin_server_input server = parts_of(c);
    go_on(c, rezdolin_server_begin(&server, next, sizeof next, out, sizeof out));
}

/* Reads a piece, where all was sent, and makes a step of it; or sends on. */
static void serve(connection *c, short events) {
    uint8_t piece[4096];
    if (c->unsent_len > 0) {
        uint8_t *at = c->unsent;
        size_t count = c->unsent_len;
        c->unsent = NULL, c->unsent_len = 0;
        bool goes_on = !(events & (POLLERR | POLLHUP)) && send_some(c, at, count);
        rezdolin_wipe(at, count);
        free(at);
        if (!goes_on)
            end_connection(c, "gone", 0);
    } else if (!c->record) {
        end_connection(c, "closed", 0);
    } else {
        ssize_t n = recv(c->end, piece, sizeof piece, 0);
        if (n <= 0) {
            end_connection(c, "gone", 0);
            return;
        }
        rezdolin_server_input server = parts_of(c);
        go_on(c, rezdolin_server_step(&server, c->record, c->record_len, piece, (size_t)n, next, sizeof next, out, sizeof out, told, sizeof told));
    }
}

/* The bytes of a file, at most `room`. */
static rezdolin_bytes bytes_of(const char *path, uint8_t *at, size_t room) {
    FILE *file = fopen(path, "rb");
    rezdolin_bytes bytes = {at, file ? fread(at, 1, room, file) : 0};
    if (file)
        fclose(file);
    return bytes;
}

int main(int argc, char **argv) {
    static uint8_t key[33], password[1025]; /* of a longer file, one byte more */
    static struct pollfd polled[CONNECTIONS + 1];
    if (argc != 5 || strlen(argv[3]) > 200)
        return 2;
    host_key.key = bytes_of(argv[2], key, sizeof key);
    user.user = (rezdolin_bytes){(const uint8_t *)argv[3], strlen(argv[3])};
    user.proof = bytes_of(argv[4], password, sizeof password);
    if (host_key.key.len != 32 || user.user.len == 0 || user.proof.len == 0 || user.proof.len > 1024) {
        fprintf(stderr, "serve: KEY-FILE has 32 bytes, USER 1 to 200, PASSWORD-FILE 1 to 1024\n");
        return 2;
    }
    struct sockaddr_in address = {.sin_family = AF_INET, .sin_port = htons((uint16_t)atoi(argv[1])), .sin_addr.s_addr = htonl(INADDR_LOOPBACK)};
    socklen_t size = sizeof address;
    int listening = socket(AF_INET, SOCK_STREAM, 0);
    if (bind(listening, (struct sockaddr *)&address, size) != 0 || listen(listening, 64) != 0 || getsockname(listening, (struct sockaddr *)&address, &size) != 0)
        return 2;
    printf("%u\n", ntohs(address.sin_port));
    fflush(stdout);
    for (int i = 0; i < CONNECTIONS; i++)
        table[i].end = -1;
    for (;;) {
        for (int i = 0; i < CONNECTIONS; i++)
            polled[i] = (struct pollfd){.fd = table[i].end, .events = table[i].unsent_len > 0 || !table[i].record ? POLLOUT : POLLIN};
        polled[CONNECTIONS] = (struct pollfd){.fd = listening, .events = POLLIN};
        poll(polled, CONNECTIONS + 1, 1000);
        for (int i = 0; i < CONNECTIONS; i++) {
            if (table[i].end >= 0 && polled[i].revents)
                serve(&table[i], polled[i].revents);
            if (table[i].end >= 0 && time(NULL) > table[i].until)
                end_connection(&table[i], "late", 0);
        }
        if (polled[CONNECTIONS].revents)
            accept_one(listening);
    }
}
