/* A client over a socket that is its standard input: it authenticates by a password, runs a command and prints what the
 * command prints.
 *
 *     client USER PASSWORD-FILE KEY-FILE COMMAND <&3       (3: a socket, as bash makes one of /dev/tcp/localhost/22)
 *
 * KEY-FILE has the host key's bytes, which `cut -d' ' -f2 host.pub | base64 -d` gives; where it is `-`, a person is asked at the terminal.
 * Its status is 0 where the command was run, 1 where the server didn't let it or takes too long, and 2 where it can't begin. The user
 * has to be authenticated after two minutes, in which a person has to answer, too; and after two more the command has to be done. */
#define _DEFAULT_SOURCE
#include "session.h"
#include <signal.h>
#include <stdbool.h>
#include <stdio.h>
#include <sys/random.h>

#ifndef SECONDS
#define SECONDS 120
#endif

/* A key of ssh-ed25519 in base64, as its .pub file has it: its digits, and how many at the front all such keys have. The others stand
 * in groups of four, the last one of three. */
enum { BLOB_LEN = 51, DIGITS = 68, FRONT = 25, GROUPS = 11, ASKED = 3 };

static session s;
static uint8_t drawn[112], out[REZDOLIN_PACKET_ROOM], received[2 * REZDOLIN_PACKET_ROOM];
static size_t session_len, len; /* of the session's record in `s.told`, and of what was received and isn't done with */

/* The bytes of a file, at most `room`. */
static rezdolin_bytes bytes_of(const char *path, uint8_t *at, size_t room) {
    FILE *file = fopen(path, "rb");
    rezdolin_bytes bytes = {at, file ? fread(at, 1, room, file) : 0};
    if (file)
        fclose(file);
    return bytes;
}

/* Ends the program: no call of the library knows the time. */
static void give_up(int number) {
    static const char why[] = "client: the server takes too long\n";
    ssize_t written = write(2, why, sizeof why - 1);
    (void)number, (void)written;
    _exit(1);
}

/* Writes the base64 of a key of ssh-ed25519. */
static void spell(const uint8_t key[BLOB_LEN], char digits[DIGITS + 1]) {
    static const char all[] = "ABCDEFGHIJKLMNOPQRSTUVWXYZabcdefghijklmnopqrstuvwxyz0123456789+/";
    for (size_t n = 0; n < DIGITS; n++) {
        const uint8_t *three = key + n / 4 * 3;
        uint32_t bits = (uint32_t)three[0] << 16 | (uint32_t)three[1] << 8 | three[2];
        digits[n] = all[bits >> (18 - 6 * (n % 4)) & 63];
    }
    digits[DIGITS] = 0;
}

/* Draws three of the first ten groups, each as likely as any other, in ascending order. */
static bool draw_groups(size_t numbers[ASKED]) {
    bool is_asked[GROUPS] = {false};
    uint8_t byte;
    for (size_t count = 0; count < ASKED;) {
        if (getentropy(&byte, 1) != 0)
            return false;
        bool *it = &is_asked[byte % 10];
        if (byte < 250 && !*it)
            *it = true, count++;
    }
    for (size_t n = 0, count = 0; n < GROUPS; n++)
        if (is_asked[n])
            numbers[count++] = n;
    return true;
}

/* Reads a line without its blanks, and answers whether it is this text. */
static bool is_typed(FILE *person, const char *text) {
    char line[80] = "";
    size_t count = 0;
    if (!fgets(line, sizeof line, person))
        return false;
    for (const char *at = line; *at; at++)
        if (*at != ' ' && *at != '\t')
            line[count++] = *at;
    size_t len = strlen(text);
    return count == len + 1 && memcmp(line, text, len) == 0 && line[len] == '\n';
}

/* Shows a person the digits of the key, and asks for three groups of them: which ones, nobody can know before it stands there. */
static bool is_trusted(FILE *person, const char digits[DIGITS + 1]) {
    size_t numbers[ASKED];
    char wanted[4 * ASKED + 1] = "";
    if (!draw_groups(numbers))
        return false;
    fprintf(person, "the server's key is ssh-ed25519 %s\n", digits);
    for (int n = 0; n < GROUPS; n++)
        fprintf(person, "%3d %.4s%c", n + 1, digits + FRONT + 4 * n, n % 6 == 5 || n == GROUPS - 1 ? '\n' : ' ');
    for (size_t n = 0; n < ASKED; n++)
        strncat(wanted, digits + FRONT + 4 * numbers[n], 4);
    fprintf(person, "compare all of it with the second word of the server's .pub file; to trust it, type groups %zu, %zu and %zu: ",
            numbers[0] + 1, numbers[1] + 1, numbers[2] + 1);
    return fflush(person) == 0 && is_typed(person, wanted);
}

/* Asks a person at the terminal whether the key of the question is the server's. */
static uint32_t ask_person(uint8_t *question, size_t question_len, uint8_t *signature, size_t *signature_len) {
    size_t count;
    char digits[DIGITS + 1];
    const uint8_t *key = rezdolin_field(question, question_len, REZDOLIN_QUESTION_KEY, &count);
    (void)signature, (void)signature_len; /* no key is elsewhere */
    if (!key || count != BLOB_LEN || memcmp(key, "\0\0\0\x0bssh-ed25519\0\0\0\x20", 19) != 0)
        return REZDOLIN_NO;
    FILE *person = fopen("/dev/tty", "r+");
    if (!person)
        return REZDOLIN_NO;
    spell(key, digits);
    bool is_yes = is_trusted(person, digits);
    fclose(person);
    return is_yes ? REZDOLIN_YES : REZDOLIN_NO;
}

/* Authenticates, and leaves the bytes that come after that in `received`. */
static bool authenticate(const rezdolin_client_input *client) {
    rezdolin_step_answer a = carry(&s, client, 0, ask_person);
    if (a.status != REZDOLIN_ANSWERED)
        fprintf(stderr, "no client: status %u, C%u\n", a.status, a.config);
    else if (a.end != REZDOLIN_AUTHENTICATED)
        fprintf(stderr, "end %u: F%u %u\n", a.end, a.fault, a.detail);
    memcpy(received, s.came, len = s.came_len);
    session_len = a.told_len;
    return a.status == REZDOLIN_ANSWERED && a.end == REZDOLIN_AUTHENTICATED;
}

/* Sends a payload in a packet of its own. */
static bool send_payload(const uint8_t *payload, size_t count) {
    size_t state_len;
    uint8_t *state = rezdolin_field(s.told, session_len, REZDOLIN_OUTGOING, &state_len);
    rezdolin_bytes_answer answer = rezdolin_seal(state, state_len, drawn + 80, 32, payload, count, out, sizeof out);
    return answer.status == REZDOLIN_ANSWERED && send_all(0, out, answer.len);
}

/* Reads what there is after what was received. */
static bool receive_more(void) {
    ssize_t n = len < sizeof received ? recv(0, received + len, sizeof received - len, 0) : 0;
    len += n > 0 ? (size_t)n : 0;
    return n > 0;
}

/* Receives the next payload into `out`. */
static bool receive_payload(size_t *count) {
    size_t state_len;
    uint8_t *state = rezdolin_field(s.told, session_len, REZDOLIN_INCOMING, &state_len);
    rezdolin_bytes_answer answer;
    do
        answer = rezdolin_open(state, state_len, received, len, out, sizeof out);
    while (answer.status == REZDOLIN_MORE && receive_more());
    if (answer.status != REZDOLIN_ANSWERED)
        return false;
    memmove(received, received + answer.used, len -= answer.used);
    *count = answer.len;
    return true;
}

/* Puts a string after a message, and answers its new length. */
static size_t put(uint8_t *message, size_t at, const char *text) {
    size_t count = strlen(text);
    message[at] = message[at + 1] = message[at + 2] = 0;
    message[at + 3] = (uint8_t)count;
    memcpy(message + at + 4, text, count);
    return at + 4 + count;
}

/* Opens a channel, which is number 0 on our side: the server's number of it is in `channel` then (RFC 4254 section 5.1). The server may
 * send 2^32 - 1 bytes: no more are granted. */
static bool open_channel(uint8_t channel[4]) {
    static const uint8_t sizes[12] = {0, 0, 0, 0, 255, 255, 255, 255, 0, 0, 128, 0};
    uint8_t message[64] = {90}; /* CHANNEL_OPEN */
    size_t count = put(message, 1, "session");
    memcpy(message + count, sizes, sizeof sizes);
    if (!send_payload(message, count + sizeof sizes))
        return false;
    while (receive_payload(&count)) {
        if (out[0] == 91 && count >= 17 && memcmp(out + 1, "\0\0\0\0", 4) == 0) { /* CONFIRMATION */
            memcpy(channel, out + 5, 4);
            return true;
        }
        if (out[0] == 1 || out[0] == 92) /* DISCONNECT, OPEN_FAILURE */
            return false;
    }
    return false;
}

/* Runs a command of at most 255 bytes, without an input (RFC 4254 section 6.5), and prints what it prints. What is sent names the
 * channel by the server's number. */
static bool run(const char *command) {
    uint8_t request[300] = {98}, eof[5] = {96}; /* CHANNEL_REQUEST, EOF */
    if (strlen(command) > 255 || !open_channel(request + 1))
        return false;
    memcpy(eof + 1, request + 1, 4);
    size_t count = put(request, 5, "exec");
    request[count] = 1;
    if (!send_payload(request, put(request, count + 1, command)) || !send_payload(eof, sizeof eof))
        return false;
    while (receive_payload(&count)) {
        if (out[0] == 94 && count > 9) /* DATA */
            fwrite(out + 9, 1, count - 9, stdout), fflush(stdout);
        else if (out[0] == 97) /* CLOSE */
            return true;
        else if (out[0] == 1 || out[0] == 100) /* DISCONNECT, CHANNEL_FAILURE */
            return false;
    }
    return false;
}

int main(int argc, char **argv) {
    static uint8_t password[1024], key[1024];
    if (argc != 5 || getentropy(drawn, sizeof drawn) != 0)
        return 2;
    rezdolin_bytes trusted = bytes_of(argv[3], key, sizeof key), ciphers = REZDOLIN_TEXT(REZDOLIN_CIPHERS),
                   macs = REZDOLIN_TEXT(REZDOLIN_MACS);
    rezdolin_attempt attempt = {.user = {(const uint8_t *)argv[1], strlen(argv[1])},
                                .service = REZDOLIN_TEXT("ssh-connection"),
                                .algorithm = REZDOLIN_TEXT(""),
                                .secret = bytes_of(argv[2], password, sizeof password),
                                .method = REZDOLIN_METHOD_PASSWORD};
    if (attempt.secret.len > 0 && password[attempt.secret.len - 1] == '\n')
        attempt.secret.len--;
    rezdolin_client_input client = {
        .side = {REZDOLIN_TEXT("rezdolin"), REZDOLIN_TEXT(""), REZDOLIN_TEXT(REZDOLIN_KEX), ciphers, ciphers, macs, macs,
                 {drawn, 16}, {drawn + 16, 32}, {drawn + 48, 32}, REZDOLIN_STRICT_YES, REZDOLIN_READING_DEPLOYED},
        .server_host_key_algorithms = REZDOLIN_TEXT(REZDOLIN_HOST_KEY),
        .plan = &attempt, .plan_len = 1, .trusted_host_keys = &trusted, .trusted_host_keys_len = 1,
        .asks = strcmp(argv[3], "-") == 0};
    signal(SIGALRM, give_up);
    alarm(SECONDS);
    bool is_authenticated = authenticate(&client);
    alarm(SECONDS);
    bool is_run = is_authenticated && run(argv[4]);
    rezdolin_wipe(password, sizeof password);
    rezdolin_wipe(drawn, sizeof drawn);
    rezdolin_wipe(s.told, sizeof s.told);
    return is_run ? 0 : 1;
}
