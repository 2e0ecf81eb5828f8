"""ML-KEM-768 (FIPS 203), as its algorithms stand, over numbers modulo 3329: slow, and not of constant time. `accumulated` makes keys, a
ciphertext and two secrets again and again, and hashes them: the digests of 100 and of 10,000 rounds are known."""
import hashlib

Q = 3329
N = 256
K = 3
ETA = 2
DU = 10
DV = 4


def bit_rev7(i):
    return int(f"{i:07b}"[::-1], 2)


ZETAS = [pow(17, bit_rev7(i), Q) for i in range(128)]
GAMMAS = [pow(17, 2 * bit_rev7(i) + 1, Q) for i in range(128)]


def h(b):
    return hashlib.sha3_256(b).digest()


def g(b):
    d = hashlib.sha3_512(b).digest()
    return d[:32], d[32:]


def j(b):
    return hashlib.shake_256(b).digest(32)


def prf(s, b):
    return hashlib.shake_256(s + bytes([b])).digest(64 * ETA)


# Algorithms 3 to 6
def bits_of(b):
    return [(x >> i) & 1 for x in b for i in range(8)]


def bytes_of(bits):
    return bytes(sum(bits[8 * i + k] << k for k in range(8)) for i in range(len(bits) // 8))


def byte_encode(d, f):
    return bytes_of([(a >> k) & 1 for a in f for k in range(d)])


def byte_decode(d, b):
    bits = bits_of(b)
    m = Q if d == 12 else 1 << d
    return [sum(bits[i * d + k] << k for k in range(d)) % m for i in range(N)]


# section 4.2.1: round half up
def compress(d, x):
    return ((x << d) * 2 + Q) // (2 * Q) % (1 << d)


def decompress(d, y):
    return (2 * y * Q + (1 << d)) // (1 << (d + 1))


# Algorithm 7
def sample_ntt(seed):
    size = 504
    while True:
        stream = hashlib.shake_128(seed).digest(size)
        out = []
        for i in range(0, size, 3):
            c = stream[i:i + 3]
            d1 = c[0] + 256 * (c[1] % 16)
            d2 = c[1] // 16 + 16 * c[2]
            if d1 < Q:
                out.append(d1)
            if d2 < Q and len(out) < N:
                out.append(d2)
            if len(out) == N:
                return out
        size += 168


# Algorithm 8
def sample_cbd(b):
    bits = bits_of(b)
    return [(sum(bits[2 * i * ETA + k] for k in range(ETA)) - sum(bits[2 * i * ETA + ETA + k] for k in range(ETA))) % Q for i in range(N)]


# Algorithm 9
def ntt(f):
    f = list(f)
    i = 1
    length = 128
    while length >= 2:
        for start in range(0, N, 2 * length):
            z = ZETAS[i]
            i += 1
            for k in range(start, start + length):
                t = z * f[k + length] % Q
                f[k + length] = (f[k] - t) % Q
                f[k] = (f[k] + t) % Q
        length //= 2
    return f


# Algorithm 10
def inverse_ntt(f):
    f = list(f)
    i = 127
    length = 2
    while length <= 128:
        for start in range(0, N, 2 * length):
            z = ZETAS[i]
            i -= 1
            for k in range(start, start + length):
                t = f[k]
                f[k] = (t + f[k + length]) % Q
                f[k + length] = z * (f[k + length] - t) % Q
        length *= 2
    return [x * 3303 % Q for x in f]


# Algorithms 11 and 12
def multiply(f, g_):
    out = []
    for i in range(128):
        a0, a1, b0, b1 = f[2 * i], f[2 * i + 1], g_[2 * i], g_[2 * i + 1]
        out += [(a0 * b0 + a1 * b1 * GAMMAS[i]) % Q, (a0 * b1 + a1 * b0) % Q]
    return out


def add(f, g_):
    return [(a + b) % Q for a, b in zip(f, g_)]


def sub(f, g_):
    return [(a - b) % Q for a, b in zip(f, g_)]


def dot(us, vs):
    out = [0] * N
    for u, v in zip(us, vs):
        out = add(out, multiply(u, v))
    return out


def matrix(rho):
    return [[sample_ntt(rho + bytes([c, r])) for c in range(K)] for r in range(K)]


# Algorithm 13
def pke_keygen(d):
    rho, sigma = g(d + bytes([K]))
    a = matrix(rho)
    s = [ntt(sample_cbd(prf(sigma, i))) for i in range(K)]
    e = [ntt(sample_cbd(prf(sigma, K + i))) for i in range(K)]
    t = [add(dot(a[i], s), e[i]) for i in range(K)]
    return b"".join(byte_encode(12, x) for x in t) + rho, b"".join(byte_encode(12, x) for x in s)


# Algorithm 14
def pke_encrypt(ek, m, r):
    t = [byte_decode(12, ek[384 * i:384 * i + 384]) for i in range(K)]
    rho = ek[384 * K:]
    a = matrix(rho)
    y = [ntt(sample_cbd(prf(r, i))) for i in range(K)]
    e1 = [sample_cbd(prf(r, K + i)) for i in range(K)]
    e2 = sample_cbd(prf(r, 2 * K))
    u = [add(inverse_ntt(dot([a[c][i] for c in range(K)], y)), e1[i]) for i in range(K)]
    mu = [decompress(1, x) for x in byte_decode(1, m)]
    v = add(add(inverse_ntt(dot(t, y)), e2), mu)
    c1 = b"".join(byte_encode(DU, [compress(DU, x) for x in f]) for f in u)
    c2 = byte_encode(DV, [compress(DV, x) for x in v])
    return c1 + c2


# Algorithm 15
def pke_decrypt(dk, c):
    us = [[decompress(DU, y) for y in byte_decode(DU, c[320 * i:320 * i + 320])] for i in range(K)]
    v = [decompress(DV, y) for y in byte_decode(DV, c[320 * K:])]
    s = [byte_decode(12, dk[384 * i:384 * i + 384]) for i in range(K)]
    w = sub(v, inverse_ntt(dot(s, [ntt(u) for u in us])))
    return byte_encode(1, [compress(1, x) for x in w])


# Algorithms 16 to 18
def keygen(d, z):
    ek, dk = pke_keygen(d)
    return ek, dk + ek + h(ek) + z


def encapsulate(ek, m):
    k, r = g(m + h(ek))
    return k, pke_encrypt(ek, m, r)


def decapsulate(dk, c):
    pke, ek, hek, z = dk[:384 * K], dk[384 * K:768 * K + 32], dk[768 * K + 32:768 * K + 64], dk[768 * K + 64:]
    m = pke_decrypt(pke, c)
    k, r = g(m + hek)
    bar = j(z + c)
    return k if pke_encrypt(ek, m, r) == c else bar


# section 7.2: the type check and the modulus check
def is_key(ek):
    return len(ek) == 1184 and all(byte_encode(12, byte_decode(12, ek[384 * i:384 * i + 384])) == ek[384 * i:384 * i + 384] for i in range(K))


class Stream:
    """SHAKE128 of nothing, read on and on."""

    def __init__(self):
        self.at, self.held, self.size = 0, b"", 1 << 16

    def read(self, n):
        while len(self.held) < self.at + n:
            self.size *= 2
            self.held = hashlib.shake_128(b"").digest(self.size)
        self.at += n
        return self.held[self.at - n:self.at]


def accumulated(rounds):
    """The digest of keys, ciphertexts, secrets, and secrets of ciphertexts that nobody made."""
    stream, out = Stream(), hashlib.shake_128()
    for _ in range(rounds):
        seed = stream.read(64)
        ek, dk = keygen(seed[:32], seed[32:])
        k, ciphertext = encapsulate(ek, stream.read(32))
        assert decapsulate(dk, ciphertext) == k
        for part in (ek, ciphertext, k, decapsulate(dk, stream.read(1088))):
            out.update(part)
    return out.hexdigest(32)
