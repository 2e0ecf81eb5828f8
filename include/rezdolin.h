/* SSH up to the authenticated user, as a client and as a server, and the packets of the session after that.
 *
 * There is no handle, and nothing to free. You keep a record, the bytes of an endpoint between two calls: each call reads the
 * record that the call before wrote, and writes the next one. A client:
 *
 *     a = rezdolin_client_begin(&client, next, sizeof next, out, sizeof out);
 *     while (a.status == REZDOLIN_ANSWERED) {
 *         (exchange `record` and `next`, wipe the old one, and send all `a.sent_len` bytes of `out`)
 *         if (a.end == REZDOLIN_OPEN)        (take the bytes that weren't used; where there are none, read from the socket)
 *             a = rezdolin_client_step(&client, record, a.record_len, piece, piece_len, next, sizeof next, out, ..
 *         else if (a.end == REZDOLIN_ASKS)   (decide on the question in `told`: REZDOLIN_YES or REZDOLIN_NO)
 *             a = rezdolin_client_answer(&client, record, a.record_len, decision, piece, 0, next, sizeof next, out, ..
 *         else
 *             break;                         (REZDOLIN_AUTHENTICATED: the session is in `told`)
 *     }
 *
 * bindings/c/session.h is that loop over a socket, bindings/c/serve.c a server of many connections.
 *
 *   1. Look at `status` first. Where it isn't REZDOLIN_ANSWERED nothing has changed but the front of `told`: go on with the old
 *      record. The same call may be made again.
 *   2. STORE, THEN SEND: store `next` and `out` together, and send `out` after that. A program that ends between sending `out` and
 *      storing `next` goes on from the older record, which is rule 3. Two variables that are exchanged in memory are such a store.
 *      Send all of `out` after each answered call, also where the endpoint has ended.
 *   3. USE A RECORD FOR ONE ANSWERED CALL, and then only the next one. If you use a record twice and send what came of both, two
 *      packets are sealed with one key and one number: who listens can read and forge packets.
 *   4. ALL PARTS OF A CONNECTION ARE THE SAME IN ALL ITS CALLS: lists, keys, draws, users. A list that is read anew between two
 *      calls may be another list. A call with other parts is REZDOLIN_PARTS. A step that only holds a part of a packet looks neither at
 *      parts nor at the rest of the record; the next step that does more is refused then, and so is one by no bytes.
 *   5. KEEP A RECORD AS YOU KEEP A PRIVATE KEY: never send it to a peer, and never keep it where another can read or write it.
 *      WHOEVER CAN READ A RECORD HAS THE KEYS of the connection, can read the session and forge packets, and may get a password.
 *      WHOEVER CAN CHANGE A RECORD CAN MAKE IT ONE OF AN AUTHENTICATED USER: nothing in it is signed. One that was changed is
 *      REZDOLIN_RECORD only where it can't be read; else it is some endpoint that fits the parts, and may stand anywhere. An older
 *      one of the connection is taken, too. Overwrite a record by rezdolin_wipe when the next one is there. What you put in, `told`,
 *      and the states in a session are secret, too. The library wipes nothing by itself: memory that it used and freed may still
 *      have keys.
 *   6. DRAW ANEW FOR EACH CONNECTION. With draws that were used before, what a client once sent is accepted again. FORK: a process that
 *      forks after the draws were made, or with a record or a session's state at hand, goes on with the connection in one process only.
 *      The other one draws anew for each of its connections, and overwrites what it got. A draw whose bytes are all equal, as in a
 *      buffer that nobody has filled, is REZDOLIN_DRAWS; no call can tell whether other bytes were drawn.
 *   7. Close a connection that takes too long to authenticate: no call knows the time.
 *   8. No pointer is null, also where its length is 0: for no bytes write REZDOLIN_TEXT(""), for an empty list the address of any
 *      entry. `next`, `out` and `told` overlap neither each other nor anything that is read. Nothing else is asked of a caller:
 *      whatever the bytes and numbers are, a call ends, and touches no other memory.
 *
 * A call's work is that of the parts, the record and the piece, however much came before. That of a step that only holds a part of a
 * packet is to copy the record. The record holds an unfinished packet, so read what there is, rather than byte by byte. Calls of
 * several threads share nothing; for one connection make one call after the other. A signal handler may run within a call: let it make
 * no call with a record or a state that may be in one (for a deadline: set a flag, or end the process).
 *
 * Link librezdolin.a and then liblibc_c.a, which ties it to malloc, realloc and free. docs/ERRORS.md has tables of the codes C1 and
 * so on ("Refused configs"), and F1 and so on ("Why it ended"). */
#ifndef REZDOLIN_H
#define REZDOLIN_H

#include <stddef.h>
#include <stdint.h>

#ifdef __cplusplus
extern "C" {
#endif

/* Bytes that are lent for a call. */
typedef struct rezdolin_bytes {
    const uint8_t *at;
    size_t len;
} rezdolin_bytes;

/* The bytes of a text between quotes, without its NUL, to begin a struct with. In an assignment write
 * (rezdolin_bytes)REZDOLIN_TEXT("text"). A pointer doesn't compile: of a string that the program has made write
 * {(const uint8_t *)string, strlen(string)}. */
#define REZDOLIN_TEXT(text) {(const uint8_t *)("" text ""), sizeof("" text "") - 1}

/* Lists of names that the library and peers in use have. The library also has the method diffie-hellman-group14-sha256. Of the ciphers
 * the last two use a MAC. */
#define REZDOLIN_KEX "mlkem768x25519-sha256,curve25519-sha256,curve25519-sha256@libssh.org"
#define REZDOLIN_HOST_KEY "ssh-ed25519"
#define REZDOLIN_CIPHERS \
    "chacha20-poly1305@openssh.com,aes256-gcm@openssh.com,aes128-gcm@openssh.com,aes256-ctr,aes128-ctr"
#define REZDOLIN_MACS \
    "hmac-sha2-256-etm@openssh.com,hmac-sha2-512-etm@openssh.com,hmac-sha2-256,hmac-sha2-512"

/* Room for each record of an endpoint. Most have some 2000 bytes: keep them in as many bytes as they have. */
#define REZDOLIN_RECORD_ROOM 160036
/* Room for each `told`. */
#define REZDOLIN_TOLD_ROOM 65536
/* Room for each packet and each payload, of rezdolin_seal and rezdolin_open. */
#define REZDOLIN_PACKET_ROOM 35000
/* Room for what a call sends where a piece has up to 4096 bytes, and the plan, the banner and the keys are of usual sizes. Any
 * call that has to send more is REZDOLIN_ROOM, and `sent_len` says how much. */
#define REZDOLIN_OUT_ROOM 65536

/* How many bytes of packets that say nothing an endpoint takes after NEWKEYS: IGNORE, DEBUG, UNIMPLEMENTED, EXT_INFO and numbers
 * without a meaning, each with its payload and 276 bytes more. What goes beyond is F17. */
#define REZDOLIN_IGNORED_LIMIT 1048576

/* What came of a call. */
enum {
    REZDOLIN_ANSWERED = 0,
    REZDOLIN_MEMORY = 1,     /* memory ran out */
    REZDOLIN_CONFIG = 2,     /* the parts make no config; `config` says why */
    REZDOLIN_UNREADABLE = 3, /* a number isn't one of its field's (0 too where 0 isn't one); a text isn't UTF-8; an entry of
                              * `users` has no user, no proof where its method needs one, one where it needs none, or a password of
                              * more than 1024 bytes; a key is said to be elsewhere and `asks` is 0; an answer is no answer's number,
                              * or has a signature where it needs none, or none where it needs one. Of the other calls: a secret
                              * hasn't its length, or a state isn't one */
    REZDOLIN_ROOM = 4,       /* a room is too small: of an endpoint `sent_len`, `record_len` and `told_len` say what `out`,
                              * `next` and `told` have to take; of the other calls `len` says it for `out` */
    REZDOLIN_PAYLOAD = 5,    /* a payload has 1 to 32768 bytes */
    REZDOLIN_USED_UP = 6,    /* 2^31 packets, or 2^35 bytes, went in this direction: end the connection */
    REZDOLIN_PACKET = 7,     /* what came is no packet; `fault` says why: end the connection */
    REZDOLIN_MORE = 8,       /* the packet isn't all there */
    REZDOLIN_RECORD = 9,     /* these bytes can't be read as a record of this version of the library. An endpoint that has ended has
                              * none. That nobody has changed a record isn't checked */
    REZDOLIN_PARTS = 10,     /* the record is one for other parts than these, or for the other role */
    REZDOLIN_UNASKED = 11,   /* the endpoint asks nothing, or something that is answered otherwise */
    REZDOLIN_IDENTITY = 12,  /* a text has no private key that can be used; `fault` says why */
    REZDOLIN_DRAWS = 13      /* a draw has bytes that are all equal: nobody has filled it. Of the calls of an endpoint `cookie`,
                              * `exchange_random` or `padding_seed` of the side, of rezdolin_seal `padding_seed` */
};

/* How an endpoint stands. Only at REZDOLIN_OPEN and REZDOLIN_ASKS is there a record to go on with. */
enum {
    REZDOLIN_OPEN = 0,          /* it takes the next piece */
    REZDOLIN_AUTHENTICATED = 1, /* `told` has the session's record */
    REZDOLIN_FAILED = 2,        /* `fault` and `detail` say why */
    REZDOLIN_CLOSED = 3,        /* the peer sent a DISCONNECT; `detail` is its reason */
    REZDOLIN_DISCONNECTED = 4,  /* you told it to disconnect; `detail` is your reason */
    REZDOLIN_ASKS = 5           /* it waits for your answer; `told` has the question */
};

/* Answers to a question. None is 0. */
enum {
    REZDOLIN_YES = 1,
    REZDOLIN_NO = 2,
    REZDOLIN_SIGNATURE = 3,   /* to REZDOLIN_ASKS_SIGNATURE, with the signature */
    REZDOLIN_NO_SIGNATURE = 4 /* to REZDOLIN_ASKS_SIGNATURE: a client tries the method none in its place, a server ends as F9 */
};

/* Methods of authentication. None is 0, so a field that was left out is REZDOLIN_UNREADABLE. */
enum {
    REZDOLIN_METHOD_NONE = 0x6e6f6e65, /* the letters of "none" */
    REZDOLIN_METHOD_PASSWORD = 1,
    REZDOLIN_METHOD_PUBLICKEY = 2,
    REZDOLIN_METHOD_SIGNED = 3 /* of an attempt: publickey, by a private key that the library doesn't get. You are asked to sign */
};

/* Where the private half of a host key is. Neither is 0. */
enum {
    REZDOLIN_KEY_HERE = 1,
    REZDOLIN_KEY_ELSEWHERE = 2 /* you are asked to sign */
};

/* Whether a side is willing to be strict. Neither is 0. */
enum {
    REZDOLIN_STRICT_YES = 1,
    REZDOLIN_STRICT_NO = 2
};

/* By which grammar the peer's version line is read. A line that isn't taken is F1. 0 is one of these, so a field that was left
 * out is the default: it accepts nobody. What a side sends is the same by either. */
enum {
    REZDOLIN_READING_DEPLOYED = 0, /* as deployed peers write it: as below, but minus signs may stand in its softwareversion, LF
                                    * alone may end it, and a client takes SSH-1.99- as 2.0 (RFC 4253 section 5.1) */
    REZDOLIN_READING_STRICT = 1    /* by the letter of RFC 4253 section 4.2 */
};

/* What both sides have. A list of names is its text, with single commas between the names; no bytes are the empty
 * list. Draws are random bytes for one connection, which nobody can foresee (rule 6). */
typedef struct rezdolin_side {
    rezdolin_bytes softwareversion; /* of the version line */
    rezdolin_bytes comments;        /* of the version line; no bytes: none */
    rezdolin_bytes kex_algorithms;
    rezdolin_bytes encryption_client_to_server;
    rezdolin_bytes encryption_server_to_client;
    rezdolin_bytes mac_client_to_server;
    rezdolin_bytes mac_server_to_client;
    rezdolin_bytes cookie;          /* 16 bytes drawn */
    rezdolin_bytes exchange_random; /* 32 bytes drawn */
    rezdolin_bytes padding_seed;    /* 32 bytes drawn */
    uint32_t strict;                /* REZDOLIN_STRICT_YES, unless you know better */
    uint32_t reading;               /* REZDOLIN_READING_DEPLOYED, unless each peer is known to write by the letter */
} rezdolin_side;

/* One attempt of a client to authenticate. */
typedef struct rezdolin_attempt {
    rezdolin_bytes user;      /* at most 255 bytes */
    rezdolin_bytes service;   /* "ssh-connection" as a rule */
    rezdolin_bytes algorithm; /* of a key: "ssh-ed25519"; of REZDOLIN_METHOD_SIGNED any that its signer has */
    rezdolin_bytes secret;    /* PASSWORD: the password. PUBLICKEY: the 32 bytes of the private key of ssh-ed25519 (RFC 8032
                               * section 5.1.5). SIGNED: the public key, as an agent lists it (`config`, 14). It is sent to the
                               * server: put no private key there */
    uint32_t method;          /* REZDOLIN_METHOD_ */
    uint32_t ask;             /* of a key: 1 to ask first whether it would do, or 0 */
} rezdolin_attempt;

typedef struct rezdolin_client_input {
    rezdolin_side side;
    rezdolin_bytes server_host_key_algorithms;
    const rezdolin_attempt *plan; /* in order, at most 64 */
    size_t plan_len;
    const rezdolin_bytes *trusted_host_keys; /* public keys, as the server sends them: what the base64 of a .pub file decodes to */
    size_t trusted_host_keys_len;
    uint32_t guess; /* 1 to send the share at once, or 0 */
    uint32_t asks;  /* 1: you are asked whether the host key is trusted, and for signatures; `trusted_host_keys` isn't read; or 0 */
} rezdolin_client_input;

typedef struct rezdolin_host_key {
    rezdolin_bytes algorithm; /* "ssh-ed25519"; of KEY_ELSEWHERE also "rsa-sha2-512" or "rsa-sha2-256" */
    rezdolin_bytes key;       /* KEY_HERE: the 32 bytes of the private key (RFC 8032 section 5.1.5). KEY_ELSEWHERE: the public key
                               * (`config`, 14). It is sent to each client: put no private key there */
    uint32_t place;           /* REZDOLIN_KEY_ */
} rezdolin_host_key;

/* What one user is accepted by. A user may have several entries. One that can't be read makes the whole list
 * REZDOLIN_UNREADABLE. A key may be of ssh-ed25519 or of RSA (its blob is named ssh-rsa): a client that asks (RFC 8308) is told
 * server-sig-algs "ssh-ed25519,rsa-sha2-512,rsa-sha2-256" right after NEWKEYS, whatever the entries are. Each request is
 * compared with each entry in full, so its time tells neither who is a user nor where a password differs; it grows with the list. A
 * request by a password of more than 1024 bytes is refused without a look. */
typedef struct rezdolin_user {
    rezdolin_bytes user;  /* not empty */
    rezdolin_bytes proof; /* the password, at most 1024 bytes, or the public key as a request has it, not empty; of NONE no bytes */
    uint32_t method;      /* REZDOLIN_METHOD_NONE, _PASSWORD or _PUBLICKEY; with NONE the user is accepted without a proof */
} rezdolin_user;

typedef struct rezdolin_server_input {
    rezdolin_side side;
    const rezdolin_host_key *host_keys; /* in order, at least one */
    size_t host_keys_len;
    rezdolin_bytes services; /* a list of names */
    rezdolin_bytes methods;  /* what a FAILURE lists: "password,publickey" or one of them */
    rezdolin_bytes required; /* methods that all have to succeed; no bytes: one success is enough */
    rezdolin_bytes banner;   /* no bytes: none is sent */
    const rezdolin_bytes *notice_lines; /* before the version line */
    size_t notice_lines_len;
    const rezdolin_user *users; /* read whole by each call, and by each request once more: with a long list set `asks` */
    size_t users_len;
    uint32_t tries; /* the request at which a failure ends the session, 1 to 20 */
    uint32_t asks;  /* 1: you are asked who is accepted, and for signatures; `users` isn't read; or 0 */
} rezdolin_server_input;

/* What a call of an endpoint answers. Where `status` isn't REZDOLIN_ANSWERED all else is 0 but what says why. */
typedef struct rezdolin_step_answer {
    uint32_t status; /* REZDOLIN_ANSWERED, _MEMORY, _CONFIG, _UNREADABLE, _ROOM, _RECORD, _PARTS, _UNASKED or _DRAWS */
    uint32_t config; /* of REZDOLIN_CONFIG: 1 for C1 and so on; 13: a list names an algorithm that the library hasn't; 14: a
                      * private key that is here isn't 32 bytes of ssh-ed25519, or what stands for one that is elsewhere isn't a
                      * public key. By its form that is a string with the name ssh-ed25519 and one of 32 bytes, or a string with
                      * another name and two more (RSA, ECDSA), of sk-ecdsa-sha2-nistp256@openssh.com three, and no byte after it;
                      * else 0 */
    uint32_t end;    /* REZDOLIN_OPEN and so on */
    uint32_t fault;  /* of REZDOLIN_FAILED: 1 for F1 and so on; else 0 */
    uint32_t detail; /* F5, F6, F7: the message; F8: the field, 1 to 8 in the order of the KEXINIT; of CLOSED and DISCONNECTED: the
                      * reason; else 0 */
    size_t used;     /* of the piece: all while it is open. At REZDOLIN_ASKS those up to the packet that asks: keep the others, and
                      * hand them in by a step after the answer. At REZDOLIN_AUTHENTICATED the others are for rezdolin_open */
    size_t sent_len;   /* bytes of `out`: send them */
    size_t record_len; /* bytes of `next`: the record to go on with; 0 where the endpoint has ended */
    size_t told_len;   /* bytes of `told`: the question at REZDOLIN_ASKS, the session at REZDOLIN_AUTHENTICATED; else 0 */
} rezdolin_step_answer;

/* What a call answers that makes bytes. */
typedef struct rezdolin_bytes_answer {
    uint32_t status;
    uint32_t fault; /* of REZDOLIN_PACKET 1: its length isn't taken, 2: its padding isn't, 3: it has no payload, 4: its tag is
                     * wrong; of REZDOLIN_IDENTITY as at rezdolin_read_identity; else 0 */
    size_t used;    /* of the bytes received */
    size_t len;     /* bytes written; of REZDOLIN_ROOM: bytes that there has to be room for */
} rezdolin_bytes_answer;

/* The calls of an endpoint.
 *
 * begin makes one that has received nothing, and step has it take a piece of what the peer sends, of any length. Where it asks,
 * a step takes nothing and asks the same again: leave the bytes in the socket until you have the answer. answer takes one of
 * REZDOLIN_YES and so on, with a signature where it is REZDOLIN_SIGNATURE, and none else; then step with the bytes that weren't
 * used. disconnect sends a DISCONNECT (RFC 4253 section 11.1) with a description in UTF-8, or none where it has more than 1024
 * bytes, and ends the endpoint. To give up without a word, and where the peer has gone, close the socket and wipe the record.
 *
 * A client asks once whether a key is the server's, and once for each signature. A server asks once for a signature, and of each
 * request that it doesn't refuse itself: by the method none, or by one of `methods` with an algorithm that the library has. It first
 * verifies the signature of a request by a key, and refuses one that is wrong without asking. A yes to a request accepts the user,
 * unless `required` has more. It asks of each key that a client asks about, too, but not at the last of `tries`. A yes to such a key
 * accepts nobody: a signed request follows, about which it asks again. REZDOLIN_QUESTION_SIGNED tells the two apart. Take your time;
 * the peer may not wait for ever, as OpenSSH's server does for two minutes.
 *
 * step and answer first write 0 to the first four bytes of `told`, so that no question of an earlier call is read again. */
rezdolin_step_answer rezdolin_client_begin(const rezdolin_client_input *client, uint8_t *next, size_t next_len, uint8_t *out,
                                           size_t out_len);
rezdolin_step_answer rezdolin_client_step(const rezdolin_client_input *client, const uint8_t *record, size_t record_len,
                                          const uint8_t *piece, size_t piece_len, uint8_t *next, size_t next_len, uint8_t *out,
                                          size_t out_len, uint8_t *told, size_t told_len);
rezdolin_step_answer rezdolin_client_answer(const rezdolin_client_input *client, const uint8_t *record, size_t record_len,
                                            uint32_t answer, const uint8_t *signature, size_t signature_len, uint8_t *next,
                                            size_t next_len, uint8_t *out, size_t out_len, uint8_t *told, size_t told_len);
rezdolin_step_answer rezdolin_client_disconnect(const rezdolin_client_input *client, const uint8_t *record, size_t record_len,
                                                uint32_t reason, const uint8_t *description, size_t description_len, uint8_t *out,
                                                size_t out_len);

rezdolin_step_answer rezdolin_server_begin(const rezdolin_server_input *server, uint8_t *next, size_t next_len, uint8_t *out,
                                           size_t out_len);
rezdolin_step_answer rezdolin_server_step(const rezdolin_server_input *server, const uint8_t *record, size_t record_len,
                                          const uint8_t *piece, size_t piece_len, uint8_t *next, size_t next_len, uint8_t *out,
                                          size_t out_len, uint8_t *told, size_t told_len);
rezdolin_step_answer rezdolin_server_answer(const rezdolin_server_input *server, const uint8_t *record, size_t record_len,
                                            uint32_t answer, const uint8_t *signature, size_t signature_len, uint8_t *next,
                                            size_t next_len, uint8_t *out, size_t out_len, uint8_t *told, size_t told_len);
rezdolin_step_answer rezdolin_server_disconnect(const rezdolin_server_input *server, const uint8_t *record, size_t record_len,
                                                uint32_t reason, const uint8_t *description, size_t description_len, uint8_t *out,
                                                size_t out_len);

/* Overwrites bytes with zeros. No compiler leaves this out. */
void rezdolin_wipe(uint8_t *bytes, size_t bytes_len);

/* The public key of the 32 bytes of a private key of ssh-ed25519. It has 51 bytes. */
rezdolin_bytes_answer rezdolin_public_key(const uint8_t *private_key, size_t private_key_len, uint8_t *out, size_t out_len);

/* The private key in the text of a file as `ssh-keygen -t ed25519` writes it: its 32 bytes, for an attempt or a host key. Where there is
 * none it answers REZDOLIN_IDENTITY, and `fault` is 1: no key; 2: a public key; 3: a private key in another form, as PEM; 4: it has a
 * passphrase; 5: it is of RSA, 6: of ECDSA, 7: of another kind; 8: several keys, or none; 9: it ends too early; 10: its public key
 * isn't that of its private one; 11: what fills it up is wrong. Bytes that are no UTF-8, as some other forms of key files have, are
 * REZDOLIN_UNREADABLE. */
rezdolin_bytes_answer rezdolin_read_identity(const uint8_t *text, size_t text_len, uint8_t *out, size_t out_len);

/* Whether a signature of `input` is right, by this algorithm and this public key: REZDOLIN_YES, or REZDOLIN_NO. 0 is neither: it wasn't
 * looked at, since the library verifies no such algorithm (it verifies ssh-ed25519, rsa-sha2-512 and rsa-sha2-256), the name can't be
 * read, an argument is too long, or memory ran out. `signature` is all that ssh-agent gives, the algorithm's name too. Compare the
 * answer with REZDOLIN_YES: never take 0 for a yes. */
uint32_t rezdolin_is_signed(const uint8_t *algorithm, size_t algorithm_len, const uint8_t *key, size_t key_len, const uint8_t *input,
                            size_t input_len, const uint8_t *signature, size_t signature_len);

/* Seals a payload of 1 to 32768 bytes. `state` is REZDOLIN_OUTGOING of a session's record, and is made that of the next packet: never
 * seal by a copy of it, too. `padding_seed` has 32 bytes drawn for this session alone, not those of the side. */
rezdolin_bytes_answer rezdolin_seal(uint8_t *state, size_t state_len, const uint8_t *padding_seed, size_t padding_seed_len,
                                    const uint8_t *payload, size_t payload_len, uint8_t *out, size_t out_len);

/* Opens the packet at the front of what was received and not used: first what the endpoint didn't use, then what
 * comes. `state` is REZDOLIN_INCOMING of a session's record, and is made that of the next packet; `out` gets the payload. Go on
 * after `used` bytes. With REZDOLIN_MORE read on and hand in all from the packet's first byte again. */
rezdolin_bytes_answer rezdolin_open(uint8_t *state, size_t state_len, const uint8_t *received, size_t received_len, uint8_t *out,
                                    size_t out_len);

/* The fields of a session's record (rezdolin_field). */
enum {
    REZDOLIN_INCOMING = 0,           /* the state of what the peer sends: keys, secret */
    REZDOLIN_OUTGOING = 1,           /* the state of what is sent: keys, secret */
    REZDOLIN_SESSION_IDENTIFIER = 2,
    REZDOLIN_USER = 3,
    REZDOLIN_SERVICE = 4,
    REZDOLIN_OWN_VERSION = 5,        /* version lines, without what ends them */
    REZDOLIN_PEER_VERSION = 6,
    REZDOLIN_SERVER_KEY = 7,         /* the server's public key */
    REZDOLIN_AGREED_KEX = 8,         /* names of algorithms from here on */
    REZDOLIN_AGREED_HOST_KEY = 9,
    REZDOLIN_AGREED_ENCRYPTION_CLIENT_TO_SERVER = 10,
    REZDOLIN_AGREED_ENCRYPTION_SERVER_TO_CLIENT = 11,
    REZDOLIN_AGREED_MAC_CLIENT_TO_SERVER = 12,
    REZDOLIN_AGREED_MAC_SERVER_TO_CLIENT = 13,
    REZDOLIN_AGREED_COMPRESSION_CLIENT_TO_SERVER = 14,
    REZDOLIN_AGREED_COMPRESSION_SERVER_TO_CLIENT = 15,
    REZDOLIN_STRICT = 16,            /* one byte, 1 where both sides are strict */
    REZDOLIN_BY_PASSWORD = 17,       /* of a server: one byte, 1 where a password succeeded; of a client no byte */
    REZDOLIN_BY_KEY_ALGORITHM = 18,  /* of a server where a key succeeded: its algorithm; else no byte */
    REZDOLIN_BY_KEY = 19             /* of a server where a key succeeded: the public key; else no byte */
};

/* What is asked: the one byte of REZDOLIN_QUESTION_KIND. */
enum {
    REZDOLIN_ASKS_HOST_KEY = 0, /* of a client: is this the server's key? */
    REZDOLIN_ASKS_USER = 1,     /* of a server: is this user accepted by this, or would this key do (REZDOLIN_QUESTION_SIGNED)? */
    REZDOLIN_ASKS_SIGNATURE = 2 /* a signature of REZDOLIN_QUESTION_INPUT, by this key and this algorithm. It is a uint32 with the
                                 * length of the algorithm's name, the name, a uint32 with the length of the signature's own bytes,
                                 * and these (RFC 4253 section 6.6), as ssh-agent gives it, and has at most 8192 bytes. Verify one of
                                 * RSA by rezdolin_is_signed before you hand it in: a faulty one can give the private key away */
};

/* The fields of a question (rezdolin_field, with `told_len`, never the room's length). Any of them but the kind, the number and
 * REZDOLIN_QUESTION_SIGNED may be what the peer wants it to be: show no text of it without a filter of control characters. */
enum {
    REZDOLIN_QUESTION_KIND = 0,      /* one byte, REZDOLIN_ASKS_HOST_KEY and so on */
    REZDOLIN_QUESTION_NUMBER = 1,    /* of a user: the number of the request, from 1 on, in 4 bytes, the highest first */
    REZDOLIN_QUESTION_USER = 2,      /* of a user: the name */
    REZDOLIN_QUESTION_SERVICE = 3,   /* of a user: the service that is to start */
    REZDOLIN_QUESTION_METHOD = 4,    /* of a user: REZDOLIN_METHOD_, in 4 bytes, the highest first. With NONE nothing is proved */
    REZDOLIN_QUESTION_ALGORITHM = 5, /* of a host key: the agreed one; of a user's: as the request names it. Decide by the key. Of a
                                      * signature: its algorithm */
    REZDOLIN_QUESTION_KEY = 6,       /* the server's public key, the user's, or the one to sign by. Show a person all of its SHA-256 in
                                      * base64, which OpenSSH calls its fingerprint, or all of its base64, which the .pub file has, and
                                      * let it type parts that you draw. The server's signature is verified after your yes to its
                                      * key; a user's has been verified where REZDOLIN_QUESTION_SIGNED is 1 */
    REZDOLIN_QUESTION_PASSWORD = 7,  /* of a user: the password, secret. Compare it in a time that doesn't tell where it differs */
    REZDOLIN_QUESTION_INPUT = 7,     /* of a signature: what is to be signed */
    REZDOLIN_QUESTION_SIGNED = 8     /* of a user: one byte, 1 where the request has a signature by this key, which has been verified:
                                      * a yes accepts the user by this key, unless `required` has more, and you can log a login. Else
                                      * 0: with PUBLICKEY the client only asks whether the key would do, and a yes accepts nobody. Of
                                      * a host key and of a signature no byte */
};

/* Where a field of a session's record or of a question stands, and how many bytes it has; null where there is no such field. Each
 * field is a uint32 with its length and so many bytes. */
static inline uint8_t *rezdolin_field(uint8_t *record, size_t len, unsigned field, size_t *field_len) {
    while (len >= 4) {
        size_t size = (size_t)record[0] << 24 | (size_t)record[1] << 16 | (size_t)record[2] << 8 | (size_t)record[3];
        if (size > len - 4)
            break;
        if (field == 0) {
            *field_len = size;
            return record + 4;
        }
        record += 4 + size;
        len -= 4 + size;
        field--;
    }
    *field_len = 0;
    return NULL;
}

#ifdef __cplusplus
}
#endif
#endif
