#!/usr/bin/env python3
"""The expected output of the program digest_cases: digests by Python's hashlib of the strings that NIST publishes, of the bytes 0, 1, 2, .. at
every length from 0 to 256, and of requests joined; nothing here looks at the program's output."""
import hashlib


def request(b, counter, before):
    return bytes([b] * 20) + counter.to_bytes(4, "big") + before.to_bytes(4, "big")


def lengths(message, step):
    return [message[:n] for n in range(0, len(message) + 1, step)]


PUBLISHED = [
    b"",
    b"abc",
    b"abcdbcdecdefdefgefghfghighijhijkijkljklmklmnlmnomnopnopq",
    b"abcdefghbcdefghicdefghijdefghijkefghijklfghijklmghijklmnhijklmnoijklmnopjklmnopqklmnopqrlmnopqrsmnopqrstnopqrstu",
    b"a" * 10000,
]
TWO = request(1, 7, 100) + request(2, 9, 100)
THREE = request(3, 9, 101) + request(4, 7, 101) + request(6, 11, 100)
EIGHT = b"".join(request(k, 6 + k, 100) for k in range(1, 9))

messages = PUBLISHED + lengths(bytes(range(256)), 1) + lengths(TWO, 28) + lengths(THREE, 28) + lengths(EIGHT, 28)
for message in messages:
    print(hashlib.sha1(message).hexdigest())
