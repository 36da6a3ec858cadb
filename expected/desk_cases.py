#!/usr/bin/env python3
# The expected output of the program desk_cases: the cases, with figures that were worked out by hand or stand in the documents, given to the desk of
# desk.py. With the word `stdin` the program's input: the same cases as its lines, but for those that it makes itself.
import sys
import zlib

sys.dont_write_bytecode = True
from desk import ORDER, be, desk, digest, nonce, request_bytes, write

MAX = 4294967295

# ---- the cases

lines, given = [], []
pairs = set()
singles = set()

# the requests of an entry, each of a nonce byte, a box and a value before; its nonce is their digest where none is given
def entry_of(t, *requests, non=None):
    requests = [(nonce(b), box, before) for b, box, before in requests]
    return (t, requests, digest(requests) if non is None else non)

# an entry of one request
def entry(t, b, box, before):
    return entry_of(t, (b, box, before))

E1, E2, E3 = entry(101, 1, 7, 100), entry(102, 2, 9, 100), entry(103, 3, 7, 101)
P = [E1, E2, E3]

# a verdict list of ones on entries of so many requests, by default of one each
def yes(kind, n, *counts):
    return bytearray([1] * ({1: 2, 2: 1}[kind] + n + sum(counts or [n])))

# the wanted nonce is a byte and how often it stands there, or other bytes; a word is a place of the proof and the number that its four bytes become
def case(label, want=None, kind=1, conf=(7, 100, 100), cert=103, log=P, no=(), verdicts=None, box=7, wanted=None, length=20, other=None, words=(),
         lent=None, breaks=None):
    s = write(kind, conf, (cert, nonce(5)), log)
    if lent is not None and lent > len(s):
        s += bytearray(lent - len(s))
    for at, number in words:
        assert at + 4 <= len(s)
        s[at:at + 4] = be(number, 4)
    if lent is not None:
        s = s[:lent]
    if verdicts is None:
        verdicts = yes(kind, len(log), *(len(requests) for _, requests, _ in log))
        for i in no:
            verdicts[i] = 0
    if wanted is None:
        wanted = 5 if kind == 1 else 3
    got, broken = desk(bytes(s), bytes(verdicts), box, other or nonce(wanted, length))
    if want is not None:
        assert got == tuple(want), (label, got, want)
    if breaks is not None:
        assert set(breaks) <= set(broken), (label, broken)
    if broken:
        singles.add(got[0])
        for behind in broken[1:]:
            pairs.add((got[0], behind))
    lines.append('%s: %d %d %d %d %d' % ((label,) + got))
    given.append(line(label, kind, conf, cert, log, verdicts, box, wanted, length, lent, other, words))

# ---- the case as a line of the input, or None where the program makes it itself: the figures of the case, the bytes lent where that is not all or
# words follow, the verdicts, and of each entry t/count and its requests behind commas. The program gives each entry the digest of its requests;
# where a proof has other bytes, or the wanted nonce has, these are words, a place and a number each, the nonce's from WANTED on

WANTED = 65536

def changes(at, s):
    return [(at + i, int.from_bytes(s[i:i + 4], 'big')) for i in range(0, len(s), 4)]

def line(label, kind, conf, cert, log, verdicts, box, wanted, length, lent, other, words):
    if len(log) > 16:
        return None
    words = list(words)
    at = {1: 60, 2: 36}[kind]
    for t, requests, non in log:
        if non != digest(requests):
            words += changes(at + 8, non)
        at += 28 + 28 * len(requests)
    if other is not None:
        words += [word for word in changes(WANTED, other) if word[1] != int.from_bytes(nonce(wanted, 4), 'big')]
    figures = [kind, *conf, cert, box, wanted, length, len(log)]
    if words or lent is not None:
        figures += [at if lent is None else lent] + [x for word in words for x in word]
    shown = ''
    for t, requests, _ in log:
        shown += ' %d/%d' % (t, len(requests)) + ''.join(',%d %d %d' % (non[0], b, before) for non, b, before in requests)
    return '%s: %s [%s]%s' % (label, ' '.join(map(str, figures)), ''.join(map(str, verdicts)), shown)

# the wanted nonce of kind 2 with another byte at a place
def bent(i, b):
    return nonce(3, i) + bytes([b]) + nonce(3, 19 - i)

# where a verdict stands in kind 1 and in kind 2: module's and owner's of entry i
def m(i, kind=1): return {1: 2, 2: 1}[kind] + 2 * (i - 1)
def o(i, kind=1): return m(i, kind) + 1

# ---- document 01, "Twelve proofs at the desk", G as Note 5 has it: number, value, place asserted, and the openings, 0 where none are given
def doc(label, number, value, place, openings=0, **k):
    case(label, **k)
    f = lines[-1].split(': ')[-1].split()
    assert (int(f[0]), int(f[1]), int(f[3]), int(f[4])) == (number, value, place, openings), lines[-1]

doc('A', 0, 103, 0, openings=2)
doc('B', 0, 100, 0, log=[], cert=100)
doc('C', 11, 0, 1, log=[], cert=99)
doc('D', 13, 0, 3, log=[E1, E2, entry(103, 3, 7, 100)])
doc('E', 11, 0, 2, log=[E1, E3])
doc('F', 0, 103, 0, openings=2, no=[o(2)])
doc('G', 13, 0, 3, no=[o(1)])
doc('H', 10, 0, 0, wanted=6)
doc('I', 7, 0, 0, conf=(7, 101, 100))
doc('J', 10, 0, 0, kind=2, log=[E1, E2], wanted=5)
doc('K', 0, 4294967295, 0, conf=(7, MAX, MAX), cert=MAX, log=[])
doc('L', 11, 0, 1, conf=(7, MAX, MAX), cert=0, log=[entry(0, 1, 7, MAX)])

# ---- vectors/desk.md, its figures asserted, with the openings of vectors/note1.md; those of the two rows with owner's no are vectors/note5.md's
case('P as it stands', (0, 103, 103, 0, 2))
case('forged clock certificate', (9, 0, 0, 0, 0), no=[1])
case('forged entry 2', (9, 0, 0, 2, 0), no=[m(2)])
case('forged certificate and entry 1', (9, 0, 0, 0, 0), no=[1, m(1)])
case('forged entry 3, t of entry 1 wrong', (9, 0, 0, 3, 0), no=[m(3)], log=[entry(105, 1, 7, 100), E2, E3])
case('own increment hidden under counter 9', (0, 101, 103, 0, 1), log=[E1, E2, entry(103, 3, 9, 101)])
case('first entry left out', (11, 0, 0, 1, 0), log=[E2, E3])
case('last entry left out', (11, 0, 0, 3, 0), log=[E1, E2])
case('last entry left out, certificate 102', (0, 101, 102, 0, 1), log=[E1, E2], cert=102)
case('entry 1 twice', (11, 0, 0, 2, 0), log=[E1, E1, E2, E3])
case('entries 1 and 2 exchanged', (11, 0, 0, 1, 0), log=[E2, E1, E3])
case('one entry past the certificate', (11, 0, 0, 5, 0), log=[E1, E2, E3, entry(104, 4, 9, 102)])
case("t of entry 2, another counter's, wrong", (11, 0, 0, 2, 0), log=[E1, entry(150, 2, 9, 100), E3])
case('confirmation of counter 9', (7, 0, 0, 0, 0), conf=(9, 100, 100))
case("confirmation's verdict no", (8, 0, 0, 0, 0), no=[0])
case('confirmation (7, 101, 102)', (0, 103, 103, 0, 1), conf=(7, 101, 102), log=[E3])
case('confirmation (7, 100, 102)', (13, 0, 0, 1, 0), conf=(7, 100, 102), log=[E3])
case('confirmation (7, 101, 104)', (11, 0, 0, 1, 0), conf=(7, 101, 104), log=[])
W1 = entry(101, 1, 7, 99)
case("owner's no at entry 3, value before wrong at entry 1", (13, 0, 0, 1, 0), log=[W1, E2, E3], no=[o(3)])
case('value before wrong at entry 1', (13, 0, 0, 1, 0), log=[W1, E2, E3])
case("another counter's value before is free", (0, 103, 103, 0, 2), log=[E1, entry(102, 2, 9, 77), E3])
case('counter 0 with value 5', (0, 103, 103, 0, 2), log=[E1, entry(102, 2, 0, 5), E3])
case('kind 2, closing on entry 3', (0, 103, 103, 0, 2), kind=2)
case('kind 2, another nonce wanted', (10, 0, 0, 0, 0), kind=2, wanted=6)
case("kind 2, the wanted nonce in another counter's entry", (10, 0, 0, 0, 0), kind=2, log=[E1, E2], wanted=2)
case("kind 2, owner's no at the last entry", (10, 0, 0, 0, 0), kind=2, no=[o(3, 2)])
case('kind 2, last t wrong', (11, 0, 0, 3, 0), kind=2, log=[E1, E2, entry(104, 3, 7, 101)])
N = MAX - 1
case('wrap', (11, 0, 0, 2, 0), conf=(7, N, N), cert=0, log=[entry(MAX, 1, 7, N), entry(0, 2, 7, MAX)])
case('the last reading', (0, MAX, MAX, 0, 1), conf=(7, N, N), cert=MAX, log=[entry(MAX, 1, 7, N)])
case('wanted counter 0', (1, 0, 0, 0, 0), box=0)
case('wanted nonce of 19 bytes', (1, 0, 0, 0, 0), length=19)
v = yes(1, 3); v[o(2)] = 2
case("verdict 2 at another counter's owner", (6, 0, 0, 0, 0), verdicts=v)
case('verdict list one byte too long', (6, 0, 0, 0, 0), verdicts=yes(1, 3) + b'\1')

# ---- the further rows of vectors/note1.md
case('openings after the confirmation (7, 101, 101)', (0, 103, 103, 0, 1), conf=(7, 101, 101), log=[E2, E3])
case('no openings after the confirmation (7, 103, 103)', (0, 103, 103, 0, 0), conf=(7, 103, 103), log=[])
case('openings of counter 9', (0, 102, 103, 0, 1), conf=(9, 100, 100), box=9)
case('no openings of counter 8', (0, 100, 103, 0, 0), conf=(8, 100, 100), box=8)
case('openings in kind 2, entry 101 only', (0, 101, 101, 0, 1), kind=2, log=[E1], wanted=1)
case("openings, every entry the counter's", (0, 103, 103, 0, 3), log=[E1, entry(102, 2, 7, 101), entry(103, 3, 7, 102)])
case('openings, value below reading', (0, 103, 103, 0, 2), conf=(7, 90, 100), log=[entry(101, 1, 7, 90), E2, E3])

# ---- cases of our own, their figures asserted by hand
R = lambda number, place=0: (number, 0, 0, place, 0)
NONE = bytearray()
case('1, nonce of 21 bytes', R(1), length=21)
case('1, empty nonce', R(1), length=0)
case('1, all empty', R(1), length=0, lent=0, verdicts=NONE, breaks=[1, 2])
case('1 and 2', R(1), box=0, lent=23, breaks=[1, 2])
case('2, 23 bytes', R(2), lent=23)
case('2, empty proof', R(2), lent=0)
case('2, proof and verdicts empty', R(2), lent=0, verdicts=NONE)
case('2 and 3', R(2), words=[(0, 65536 + 1)], lent=23)
pairs.add((2, 3))        # form 1 in 23 bytes: the desk above stops at 2, having no whole header
case('3, form 1', R(3), words=[(0, 65536 + 1)])
case('3, form 3', R(3), words=[(0, 3 * 65536 + 1)])
case('3, kind 0', R(3), words=[(0, 2 * 65536)])
case('3, kind 3', R(3), words=[(0, 2 * 65536 + 3)])
case('3 and 4', R(3), words=[(0, 65536 + 2)], log=[], verdicts=bytearray(b'\1'), breaks=[3, 4])
case('3 and 5', R(3), words=[(0, 0)], lent=24, verdicts=NONE, breaks=[3, 5])
case('4, kind 2 without entries', R(4), words=[(0, 2 * 65536 + 2)], log=[], verdicts=bytearray(b'\1'))
case('4, most entries in 24 bytes', R(4), words=[(20, MAX)], lent=24, breaks=[4, 5])
case('4 and 5', R(4), words=[(20, 1025)], breaks=[4, 5])
assert len(write(1, (7, 100, 100), (103, nonce(5)), P)) == 228
case('5, one byte more', R(5), lent=229)
case('5, one byte less', R(5), lent=227)
case('5, length', R(5), words=[(4, 229)])
case("5, confirmation's offset", R(5), words=[(8, 25)])
case("5, certificate's offset", R(5), words=[(12, 0)])
case("5, log's offset", R(5), words=[(16, 36)])
case('5, count', R(5), words=[(20, 2)])
case('4, kind', R(4), words=[(0, 2 * 65536 + 2)], verdicts=yes(2, 3))
case('5 and 6', R(5), words=[(4, 227)], verdicts=yes(1, 3)[:7])
pairs.add((5, 6))        # 7 verdicts for 3 entries in kind 1: the desk above stops at 5, having no proof
def v2(i, no=()):
    v = yes(1, 3); v[i] = 2
    for k in no: v[k] = 0
    return v
case('6, one verdict less', R(6), verdicts=yes(1, 3)[:7])
case('6, empty verdicts', R(6), verdicts=NONE)
case('6, verdict 2 at the confirmation', R(6), verdicts=v2(0))
case('6, verdict 2 at the end', R(6), verdicts=v2(7))
case('6 and 7', R(6), conf=(7, 101, 100), verdicts=v2(o(2)), breaks=[6, 7])
case('6 and 8', R(6), verdicts=v2(7, [0]), breaks=[6, 8])
case('7 and 8, value', R(7), conf=(7, 101, 100), no=[0], breaks=[7, 8])
case('7 and 8, counter', R(7), conf=(9, 100, 100), no=[0], breaks=[7, 8])
case('8 and 9, certificate', R(8), no=[0, 1], breaks=[8, 9])
case('8 and 9, entry', R(8), no=[0, m(1)], breaks=[8, 9])
case('9, entries 2 and 3', R(9, 2), no=[m(2), m(3)])
case('9 and 10, certificate', R(9), no=[1], wanted=6, breaks=[9, 10])
case('9 and 10, entry', R(9, 3), no=[m(3)], wanted=6, breaks=[9, 10])
case('9 and 11', R(9, 3), no=[m(3)], cert=104, breaks=[9, 11])
case('10, last byte of the nonce', R(10), words=[(56, 0x05050506)])
case('10 and 11, certificate', R(10), wanted=6, cert=104, breaks=[10, 11])
case('10 and 11, entry', R(10), wanted=6, log=[entry(105, 1, 7, 100), E2, E3], breaks=[10, 11])
LATE = [E1, E2, entry(104, 3, 7, 99)]
case('11, entries 2 and 3', R(11, 2), log=[E1, entry(103, 2, 9, 100), entry(104, 3, 7, 101)])
case('11, entry and certificate', R(11, 3), cert=104, log=LATE)
case('11 and 13, certificate, entry 1 unsigned', R(11, 4), cert=104, no=[o(1)], breaks=[11, 13])
case('11 and 13, entry 1 unsigned', R(11, 3), log=LATE, no=[o(1)], breaks=[11, 13])
case('11 and 13', R(11, 3), log=LATE, breaks=[11, 13])
case('entries 1 and 3 unsigned', (0, 100, 103, 0, 0), no=[o(1), o(3)])
case('13, entries 1 and 3', R(13, 1), log=[W1, E2, entry(103, 3, 7, 102)])
EARLY = [entry(102, 1, 7, 100), E2, E3]
case("6, kind 2 with kind 1's verdicts", R(6), kind=2, verdicts=yes(1, 3))
case('9, kind 2', R(9, 3), kind=2, no=[m(3, 2)])
case('9 and 10, kind 2', R(9, 3), kind=2, no=[m(3, 2)], wanted=6, breaks=[9, 10])
case('10, kind 2, last byte of the nonce', R(10), kind=2, other=bent(19, 6))
case('10, kind 2, nonce of entry 1', R(10), kind=2, wanted=1)
case('10 and 11, kind 2, nonce', R(10), kind=2, wanted=6, log=EARLY, breaks=[10, 11])
case('10 and 11, kind 2, counter', R(10), kind=2, log=[entry(102, 1, 7, 100), E2, entry(103, 3, 9, 101)], breaks=[10, 11])
case('10 and 11, kind 2, entries 1 and 3 unsigned', R(10), kind=2, log=EARLY, no=[o(1, 2), o(3, 2)], breaks=[10, 11])
case('13, kind 2', R(13, 3), kind=2, log=[E1, E2, entry(103, 3, 7, 100)])
case('kind 2, one entry', (0, 101, 101, 0, 1), kind=2, log=[entry(101, 3, 7, 100)])
case('kind 2, the last reading', (0, MAX, MAX, 0, 1), kind=2, conf=(7, N, N), log=[entry(MAX, 3, 7, N)])
case('kind 2, wrap', R(11, 1), kind=2, conf=(7, MAX, MAX), log=[entry(0, 3, 7, MAX)])
case('value below reading', (0, 50, 100, 0, 0), conf=(7, 50, 100), cert=100, log=[])
case('all 0', (0, 0, 0, 0, 0), conf=(7, 0, 0), cert=0, log=[])
case('no entry of its own', (0, 100, 102, 0, 0), cert=102, log=[entry(101, 1, 0, 0), E2], no=[o(1), o(2)])
case('counter 9 wanted', (0, 102, 103, 0, 1), conf=(9, 100, 100), box=9, no=[o(1), o(3)])
case('highest counter', (0, 100, 100, 0, 0), conf=(MAX, 100, 100), cert=100, log=[], box=MAX)
NEAR = [0x04030201, 0x01020305, 0x01020404, 0x01030304, 0x02020304]
case('ids that differ in one byte or in their order', (0, 107, 107, 0, 2), conf=(0x01020304, 100, 100), cert=107, box=0x01020304,
     log=[entry(101, 1, 0x01020304, 100)] + [entry(102 + i, 2 + i, b, 77) for i, b in enumerate(NEAR)] + [entry(107, 7, 0x01020304, 101)],
     no=[o(i) for i in range(2, 7)])

# ---- document 02, Note 3: the nonce that the proof closes on differs from the wanted one in one bit of one byte, the lowest of it in kind 1, where
# the proof's is changed, and the highest in kind 2, where the wanted one is; or not at all
def one_bit(b, i, bit):
    near = bytearray(nonce(b, 4))
    near[i % 4] ^= bit
    return 40 + i // 4 * 4, int.from_bytes(near, 'big')

case('the wanted nonce', (0, 100, 100, 0, 0), cert=100, log=[])
for i in range(20):
    case('10, byte %d of the nonce' % (i + 1), R(10), cert=100, log=[], words=[one_bit(5, i, 1)])
case('kind 2, the wanted nonce', (0, 101, 101, 0, 1), kind=2, log=[entry(101, 3, 7, 100)])
for i in range(20):
    case('10, kind 2, byte %d of the nonce' % (i + 1), R(10), kind=2, log=[entry(101, 3, 7, 100)], other=bent(i, 3 ^ 128))

# ---- vectors/note5.md, its figures asserted; its last row is below, with the others of 1,024 entries
S = [E1, entry(102, 2, 7, 101), entry(103, 3, 7, 101)]
T1 = entry(105, 1, 7, 100)
case('P, all signed', (0, 103, 103, 0, 2))
case("P, owner's no at entry 2, another counter's", (0, 103, 103, 0, 2), no=[o(2)])
case("P, owner's no at entry 1", (13, 0, 0, 3, 0), no=[o(1)])
case("P, owner's no at entry 3", (0, 101, 103, 0, 1), no=[o(3)])
case("P, owner's no at entries 1 and 3", (0, 100, 103, 0, 0), no=[o(1), o(3)])
case("P, owner's no everywhere", (0, 100, 103, 0, 0), no=[o(1), o(2), o(3)])
case('S, all signed', (13, 0, 0, 3, 0), log=S)
case("S, owner's no at entry 2", (0, 103, 103, 0, 2), log=S, no=[o(2)])
case("S, owner's no at entries 2 and 3", (0, 101, 103, 0, 1), log=S, no=[o(2), o(3)])
case("S, owner's no at entry 1", (13, 0, 0, 2, 0), log=S, no=[o(1)])
case("S, owner's no at entry 2, its value before 4294967295", (0, 103, 103, 0, 2), log=[E1, entry(102, 2, 7, MAX), S[2]], no=[o(2)])
case("S, owner's no at entry 2, entry 3 with value before 102", (13, 0, 0, 3, 0), log=[E1, S[1], entry(103, 3, 7, 102)], no=[o(2)])
case("S, owner's and module's no at entry 2", (9, 0, 0, 2, 0), log=S, no=[m(2), o(2)])
case("S, owner's no at entry 2, its t wrong", (11, 0, 0, 2, 0), log=[E1, entry(105, 2, 7, 101), S[2]], no=[o(2)])
case("S, owner's no at entry 2, certificate 102", (11, 0, 0, 4, 0), log=S, cert=102, no=[o(2)])
case('S, entry 2 taken out', (11, 0, 0, 2, 0), log=[E1, S[2]])
case("S, owner's no at entry 2, value before wrong at entry 1", (13, 0, 0, 1, 0), log=[W1, S[1], S[2]], no=[o(2)])
case("P, owner's no at entry 3, value before wrong at entry 1", (13, 0, 0, 1, 0), log=[W1, E2, E3], no=[o(3)])
case("one entry with value before 55, owner's no", (0, 100, 101, 0, 0), cert=101, log=[entry(101, 1, 7, 55)], no=[o(1)])
case("kind 2, S, owner's no at entry 2", (0, 103, 103, 0, 2), kind=2, log=S, no=[o(2, 2)])
case("kind 2, P, owner's no at entry 1", (13, 0, 0, 3, 0), kind=2, no=[o(1, 2)])
case("kind 2, P, owner's no at entry 3", (10, 0, 0, 0, 0), kind=2, no=[o(3, 2)])
case("10 and 11, kind 2, owner's no at entry 3", (10, 0, 0, 0, 0), kind=2, log=[T1, E2, E3], no=[o(3, 2)], breaks=[10, 11])
case("10 and 13, kind 2, owner's no at entry 3", (10, 0, 0, 0, 0), kind=2, log=[W1, E2, E3], no=[o(3, 2)], breaks=[10, 13])
case("9 and 10, kind 2, owner's no at entry 3", (9, 0, 0, 1, 0), kind=2, no=[m(1, 2), o(3, 2)], breaks=[9, 10])
case("kind 2, one entry, owner's no", (10, 0, 0, 0, 0), kind=2, log=[E1], wanted=1, no=[o(1, 2)])
case("kind 2, the wanted nonce in another counter's entry, owner's no", (10, 0, 0, 0, 0), kind=2, log=[E1, E2], wanted=2, no=[o(2, 2)])
case("the last reading, owner's no", (0, N, MAX, 0, 0), conf=(7, N, N), cert=MAX, log=[entry(MAX, 1, 7, N)], no=[o(1)])

# ---- document 02, Note 5: cases of our own, their figures asserted by hand. An entry of the wanted counter with owner's no is called unsigned
def raises(*befores):
    return [entry(101 + i, 1 + i, 7, before) for i, before in enumerate(befores)]

CHAIN = raises(100, 101, 102, 103, 104)
case('unsigned first', (0, 103, 103, 0, 2), log=raises(100, 100, 102), no=[o(1)])
case('unsigned first, value before wrong', (0, 103, 103, 0, 2), log=raises(55, 100, 102), no=[o(1)])
case('unsigned last', (0, 102, 103, 0, 2), log=raises(100, 101, 102), no=[o(3)])
case('unsigned last, value before wrong', (0, 102, 103, 0, 2), log=raises(100, 101, 0), no=[o(3)])
case('two unsigned at the beginning', (0, 105, 105, 0, 3), cert=105, log=raises(100, 101, 100, 103, 104), no=[o(1), o(2)])
case('three unsigned in the middle', (0, 105, 105, 0, 2), cert=105, log=raises(100, 101, 102, 103, 101), no=[o(2), o(3), o(4)])
case('two unsigned at the end', (0, 103, 105, 0, 3), cert=105, log=CHAIN, no=[o(4), o(5)])
case('all five unsigned', (0, 100, 105, 0, 0), cert=105, log=CHAIN, no=[o(i) for i in range(1, 6)])
case('all unsigned, value below reading', (0, 90, 103, 0, 0), conf=(7, 90, 100), log=raises(90, 101, 102), no=[o(1), o(2), o(3)])
case('unsigned first, value below reading', (0, 103, 103, 0, 2), conf=(7, 90, 100), log=raises(100, 90, 102), no=[o(1)])
case('signed and unsigned in turns', (0, 105, 106, 0, 3), cert=106, log=raises(100, 101, 101, 103, 103, 105), no=[o(2), o(4), o(6)])
case('unsigned and signed in turns', (0, 106, 106, 0, 3), cert=106, log=raises(100, 100, 102, 102, 104, 104), no=[o(1), o(3), o(5)])
case("13, from an unsigned one's t", R(13, 2), log=raises(100, 101, 102), no=[o(1)])
case("13, from the last unsigned one's t", R(13, 5), cert=105, log=CHAIN, no=[o(2), o(3), o(4)])
case("13, from the first unsigned one's t", R(13, 5), cert=105, log=raises(100, 101, 102, 103, 102), no=[o(2), o(3), o(4)])
case('13, between unsigned ones with wrong values before', R(13, 2), log=raises(55, 99, 66), no=[o(1), o(3)])
case('9, unsigned first', R(9, 1), no=[m(1), o(1)])
case('9, unsigned last', R(9, 3), no=[m(3), o(3)])
case('9, behind an unsigned one', R(9, 3), log=S, no=[o(2), m(3)])
case('9 and 13, unsigned first', R(9, 3), log=S, no=[o(1), m(3)], breaks=[9, 13])
case('9 and 11, unsigned last', R(9, 3), log=LATE, no=[m(3), o(3)], breaks=[9, 11])
case('10 and 13, unsigned first', R(10), log=S, no=[o(1)], wanted=6, breaks=[10, 13])
case('11, unsigned first', R(11, 1), log=[T1, E2, entry(103, 3, 7, 100)], no=[o(1)])
case('11, unsigned, value before wrong', R(11, 2), log=[E1, entry(105, 2, 7, 77), S[2]], no=[o(2)])
case('11, unsigned, t of the entry before', R(11, 2), log=[E1, entry(101, 2, 7, 101), S[2]], no=[o(2)])
case('11, unsigned last', R(11, 3), log=[E1, E2, entry(104, 3, 7, 101)], no=[o(3)])
case('11 and 13, unsigned first', R(11, 4), cert=104, log=S, no=[o(1)], breaks=[11, 13])
case('11 and 13, unsigned last', R(11, 3), log=[W1, E2, entry(104, 3, 7, 101)], no=[o(3)], breaks=[11, 13])
case('kind 2, unsigned but for the last', (0, 103, 103, 0, 1), kind=2, log=raises(55, 66, 100), no=[o(1, 2), o(2, 2)])
case("kind 2, owner's no at another counter's entry", (0, 103, 103, 0, 2), kind=2, no=[o(2, 2)])
case('kind 2, unsigned first of two', (0, 102, 102, 0, 1), kind=2, log=[entry(101, 1, 7, 55), entry(102, 3, 7, 100)], no=[o(1, 2)])
case('10, kind 2, unsigned last of two with one nonce', R(10), kind=2, log=[entry(101, 3, 7, 100), entry(102, 3, 7, 101)], no=[o(2, 2)])
case('10, kind 2, unsigned last', R(10), kind=2, log=raises(100, 101, 102), no=[o(3, 2)])
case('10, kind 2, all unsigned', R(10), kind=2, log=raises(100, 101, 102), no=[o(1, 2), o(2, 2), o(3, 2)])
case('10, kind 2, unsigned last, another nonce wanted', R(10), kind=2, no=[o(3, 2)], wanted=6)
case('10, kind 2, the last reading unsigned', R(10), kind=2, conf=(7, N, N), log=[entry(MAX, 3, 7, N)], no=[o(1, 2)])
case('9 and 10, kind 2, unsigned last', R(9, 3), kind=2, no=[m(3, 2), o(3, 2)], breaks=[9, 10])
case('11, kind 2, unsigned first', R(11, 1), kind=2, log=[T1, E2, entry(103, 3, 7, 100)], no=[o(1, 2)])
case("13, kind 2, from an unsigned one's t", R(13, 3), kind=2, log=raises(100, 101, 102), no=[o(2, 2)])
case('the last reading unsigned', (0, N, MAX, 0, 1), conf=(7, N - 1, N - 1), cert=MAX, log=[entry(N, 1, 7, N - 1), entry(MAX, 2, 7, N)], no=[o(2)])
case('the last reading behind an unsigned one', (0, MAX, MAX, 0, 1), conf=(7, N - 1, N - 1), cert=MAX,
     log=[entry(N, 1, 7, 0), entry(MAX, 2, 7, N - 1)], no=[o(1)])
case('wrap, unsigned', R(11, 1), conf=(7, MAX, MAX), cert=0, log=[entry(0, 1, 7, MAX)], no=[o(1)])
case("owner's no at its own and another counter's entry", (0, 101, 103, 0, 1), no=[o(2), o(3)])
case("owner's no at its own and counter 0's entry", (0, 101, 103, 0, 1), log=[E1, entry(102, 2, 0, 5), entry(103, 3, 7, 102)], no=[o(2), o(3)])
case("counter 9 wanted, owner's no at its own and another counter's entry", (0, 100, 103, 0, 0), conf=(9, 100, 100), box=9, no=[o(1), o(2)])
case("9, owner's no at another counter's entry", R(9, 2), no=[m(2), o(2)])
case("11, owner's no at another counter's entry", R(11, 2), log=[E1, entry(150, 2, 9, 100), E3], no=[o(2)])
case("6, verdict 2 at the counter's owner", R(6), verdicts=v2(o(1)))
case("6, verdict 2 at the counter's owner, entry 1 unsigned", R(6), verdicts=v2(o(3), [o(1)]), breaks=[6, 13])
case('7, all unsigned', R(7), conf=(7, 101, 100), no=[o(1), o(3)])
case('8, all unsigned', R(8), no=[0, o(1), o(3)])

# ---- vectors/note7.md, its figures asserted; its rows of many entries are below, with the others
Q = [entry_of(101, (1, 7, 100), (2, 9, 100)), entry_of(102), entry_of(103, (3, 9, 101), (4, 7, 101), (6, 11, 100))]
T = [entry_of(101), entry_of(102, (2, 9, 100), (3, 7, 100))]

# where the verdicts on entry i of a log stand: the module's, and the owner's on its k-th request
def verdict(log, i, k=0, kind=1):
    return {1: 2, 2: 1}[kind] + sum(1 + len(requests) for _, requests, _ in log[:i - 1]) + k

# the proof form: its two examples, byte for byte
def hexes(text):
    return bytes.fromhex(text.replace(' ', ''))

READ = hexes('0002 0001 00000074 00000018 00000024 0000003c 00000001 00000007 00000064 00000064 00000065 0505050505050505050505050505050505050505'
             '00000065 00000001 a1d34145bde11326f392b7af379481c8d6487b6d 0101010101010101010101010101010101010101 00000007 00000064')
INCREMENT = hexes('0002 0002 00000094 00000018 00000000 00000024 00000002 00000007 00000064 00000064'
                  '00000065 00000000 da39a3ee5e6b4b0d3255bfef95601890afd80709 00000066 00000002 a5d08acee096fc0cf0d25a060b62f26988739fe1'
                  '0202020202020202020202020202020202020202 00000009 00000064 0303030303030303030303030303030303030303 00000007 00000064')
assert write(1, (7, 100, 100), (101, nonce(5)), [E1]) == READ and zlib.crc32(READ) == 0x168edb19
assert write(2, (7, 100, 100), None, T) == INCREMENT and zlib.crc32(INCREMENT) == 0xa409dfab
case('kind 1, one entry', (0, 101, 101, 0, 1), cert=101, log=[E1])
case('kind 2, one entry behind a tick', (0, 102, 102, 0, 1), kind=2, log=T)

case('J, nonce bytes 2 wanted', (10, 0, 0, 0, 0), kind=2, log=[E1, E2], wanted=2)
# an entry of form 1: t, nonce, box, value before
OLD = be(1, 2) + be(1, 2) + be(156, 4) + bytes(write(1, (7, 100, 100), (103, nonce(5)), P)[8:60])
OLD += b''.join(be(t, 4) + request_bytes(requests) for t, requests, _ in P)
assert len(OLD) == 156
case('P as form 1 writes it', (3, 0, 0, 0, 0), log=[], lent=156, verdicts=yes(1, 3),
     words=changes(0, OLD[:8]) + changes(20, OLD[20:24]) + changes(60, OLD[60:]))
EIGHT = [(k, 6 + k, 100) for k in range(1, 9)]
NINE = entry_of(101, *EIGHT, (9, 15, 100))
case('eight requests', (0, 101, 101, 0, 1), cert=101, log=[entry_of(101, *EIGHT)])
case('nine requests', (4, 0, 0, 0, 0), cert=101, log=[NINE])
case('nine requests, the count whole in the bytes', (4, 0, 0, 0, 0), cert=101, log=[NINE], lent=68)
case('nine requests, the count not whole in the bytes', (5, 0, 0, 0, 0), cert=101, log=[NINE], lent=67)
case("count 9 of entry 2, whole in the bytes", (4, 0, 0, 0, 0), words=[(120, 9)], lent=124)
case("kind 2, count 9 of entry 1, whole in the bytes", (4, 0, 0, 0, 0), kind=2, log=T, words=[(40, 9)], lent=44)
case("count 8 of entry 1, the next count behind the bytes", (5, 0, 0, 0, 0), words=[(64, 8)])
case("P's bytes with kind 2", (4, 0, 0, 0, 0), words=[(0, 2 * 65536 + 2)])
case('1,025 entries in 24 bytes', (4, 0, 0, 0, 0), words=[(20, 1025)], lent=24)
case('1,024 entries in 24 bytes', (5, 0, 0, 0, 0), words=[(20, 1024)], lent=24)
case('Q', (0, 103, 103, 0, 2), log=Q)
case('Q, 9 verdicts', (6, 0, 0, 0, 0), log=Q, verdicts=bytearray([1] * 9))
case('Q, 11 verdicts', (6, 0, 0, 0, 0), log=Q, verdicts=bytearray([1] * 11))
case('Q, counter 9 wanted', (0, 103, 103, 0, 2), log=Q, box=9, conf=(9, 100, 100))
case('Q, counter 11 wanted', (0, 103, 103, 0, 1), log=Q, box=11, conf=(11, 100, 100))
case("Q, owner's no at the counter's request in entry 3", (0, 101, 103, 0, 1), log=Q, no=[verdict(Q, 3, 2)])
case("Q, owner's no at the counter's request in entry 1", (13, 0, 0, 3, 0), log=Q, no=[verdict(Q, 1, 1)])
case("Q, owner's no at every request of another counter", (0, 103, 103, 0, 2), log=Q, no=[verdict(Q, 1, 2), verdict(Q, 3, 1), verdict(Q, 3, 3)])
case('Q, value before wrong in entry 3', (13, 0, 0, 3, 0), log=Q[:2] + [entry_of(103, (3, 9, 5), (4, 7, 100), (6, 11, 5))])
case('Q, certificate 104', (11, 0, 0, 4, 0), log=Q, cert=104)
case("Q, module's no at the tick", (9, 0, 0, 2, 0), log=Q, no=[verdict(Q, 2)])
case("P, entry 2's nonce that of its request", (30, 0, 0, 2, 0), log=[E1, E2[:2] + (nonce(2),), E3])
case("Q, the tick's nonce bytes 2", (30, 0, 0, 2, 0), log=[Q[0], entry_of(102, non=nonce(2)), Q[2]])
case("Q, entry 1's requests exchanged", (30, 0, 0, 1, 0), log=[(101, Q[0][1][::-1], Q[0][2])] + Q[1:])
case("Q, entry 1's nonce bytes 1, module's no at entry 3", (9, 0, 0, 3, 0), log=[Q[0][:2] + (nonce(1),)] + Q[1:], no=[verdict(Q, 3)], breaks=[9, 30])
TWICE = entry_of(101, (1, 7, 100), (2, 7, 101))
case('P, the counter twice in entry 1', (31, 0, 0, 1, 0), log=[TWICE, E2, E3])
case("P, the counter twice in entry 1, owner's no at the second", (31, 0, 0, 1, 0), log=[TWICE, E2, E3], no=[verdict(P, 1, 2)])
case('P, counter 9 twice in entry 2', (31, 0, 0, 2, 0), log=[E1, entry_of(102, (2, 9, 1), (4, 8, 1), (6, 9, 2)), E3])
case('P, counter 0 twice in entry 2', (31, 0, 0, 2, 0), log=[E1, entry_of(102, (2, 0, 0), (4, 0, 0)), E3])
case('P, counter 0 once in entry 2', (0, 103, 103, 0, 2), log=[E1, entry_of(102, (2, 0, 5)), E3])
case("P, the counter twice in entry 1, entry 3's nonce bytes 3", (30, 0, 0, 3, 0), log=[TWICE, E2, E3[:2] + (nonce(3),)], breaks=[30, 31])
case('P, counter 9 twice in entry 2, nonce bytes 6 wanted', (31, 0, 0, 2, 0), log=[E1, entry_of(102, (2, 9, 1), (4, 9, 2)), E3], wanted=6,
     breaks=[31, 10])
case('R', (0, 102, 102, 0, 1), kind=2, log=T)
case("R, owner's no at the counter's request", (10, 0, 0, 0, 0), kind=2, log=T, no=[verdict(T, 2, 2, 2)])
case("R, owner's no at counter 9's request", (0, 102, 102, 0, 1), kind=2, log=T, no=[verdict(T, 2, 1, 2)])
case("R, the nonce of counter 9's request wanted", (10, 0, 0, 0, 0), kind=2, log=T, wanted=2)
case("R, entry 2's digest wanted", (10, 0, 0, 0, 0), kind=2, log=T, other=T[1][2])
case('R, counter 9 and its nonce wanted', (0, 102, 102, 0, 1), kind=2, log=T, box=9, wanted=2, conf=(9, 100, 100))
case('R and a tick behind it', (10, 0, 0, 0, 0), kind=2, log=T + [entry_of(103)])

# ---- document 02, Note 7: cases of our own, their figures asserted by hand
def sealed_as(e, non):
    return e[:2] + (non,)

def bit(non, i, value):
    near = bytearray(non)
    near[i] ^= value
    return bytes(near)

BAD2, BAD3 = sealed_as(E2, nonce(2)), sealed_as(E3, nonce(3))
case('30, entries 2 and 3', R(30, 2), log=[E1, BAD2, BAD3])
case('30, first bit of the digest', R(30, 1), log=[sealed_as(E1, bit(E1[2], 0, 128)), E2, E3])
case('30, last bit of the digest', R(30, 3), log=[E1, E2, sealed_as(E3, bit(E3[2], 19, 1))])
case("30, the digest of another entry's request", R(30, 1), log=[sealed_as(E1, E3[2]), E2, sealed_as(E3, E1[2])])
case('30, the digest of no request', R(30, 2), log=[E1, sealed_as(E2, digest([])), E3])
case("30, a tick's nonce all zero", R(30, 2), log=[E1, entry_of(102, non=nonce(0)), E3])
case("30, a tick with a request's digest", R(30, 2), log=[E1, entry_of(102, non=E2[2]), E3])
case("30, a request's nonce changed", R(30, 2), log=[E1, sealed_as(entry(102, 6, 9, 100), E2[2]), E3])
case("30, a request's counter changed", R(30, 2), log=[E1, sealed_as(entry(102, 2, 8, 100), E2[2]), E3])
case("30, a request's value before changed", R(30, 2), log=[E1, sealed_as(entry(102, 2, 9, 101), E2[2]), E3])
case('30, a request less', R(30, 3), log=Q[:2] + [(103, Q[2][1][:2], Q[2][2])])
case('30, a request more', R(30, 1), log=[(101, Q[0][1] + Q[2][1][2:], Q[0][2])] + Q[1:])
case('30, kind 2, the tick', R(30, 1), kind=2, log=[entry_of(101, non=nonce(3)), T[1]])
case("30, kind 2, the wanted nonce as the last entry's", R(30, 2), kind=2, log=[T[0], sealed_as(T[1], nonce(3))])
case("30, owner's no", R(30, 2), log=[E1, BAD2, E3], no=[o(2)])
case('6 and 30', R(6), log=[E1, BAD2, E3], verdicts=v2(7), breaks=[6, 30])
case('7 and 30', R(7), conf=(7, 101, 100), log=[E1, BAD2, E3], breaks=[7, 30])
case('8 and 30', R(8), no=[0], log=[E1, BAD2, E3], breaks=[8, 30])
case('9 and 30, certificate', R(9), no=[1], log=[E1, BAD2, E3], breaks=[9, 30])
case('9 and 30, one entry', R(9, 2), no=[m(2)], log=[E1, BAD2, E3], breaks=[9, 30])
case('30 and 31, one entry', R(30, 1), log=[sealed_as(TWICE, nonce(1)), E2, E3], breaks=[30, 31])
case('30 and 10', R(30, 3), log=[E1, E2, BAD3], wanted=6, breaks=[30, 10])
case('30 and 11', R(30, 3), log=[T1, E2, BAD3], breaks=[30, 11])
case('30 and 13', R(30, 3), log=[W1, E2, BAD3], breaks=[30, 13])
case('31, entries 1 and 3', R(31, 1), log=[TWICE, E2, entry_of(103, (3, 9, 1), (4, 9, 1))])
case('31, first and last of eight', R(31, 1), cert=101, log=[entry_of(101, *EIGHT[:7], (8, 7, 101))])
case('31, last two of eight', R(31, 1), cert=101, log=[entry_of(101, *EIGHT[:7], (8, 13, 100))])
case('31, ids that differ in one byte are two', (0, 101, 101, 0, 1), cert=101, log=[entry_of(101, (1, 7, 100), (2, 263, 100), (3, 117440512, 100))])
case('31, kind 2, the last entry', R(31, 2), kind=2, log=[T[0], entry_of(102, (3, 7, 100), (3, 7, 100))])
case("31, kind 2, both unsigned", R(31, 2), kind=2, log=[T[0], entry_of(102, (3, 7, 100), (3, 7, 100))], no=[3, 4])
case('9 and 31', R(9, 3), no=[5 + 2], log=[TWICE, E2, E3], breaks=[9, 31])
case('31 and 11', R(31, 1), log=[TWICE, E2, entry(104, 3, 7, 101)], breaks=[31, 11])
case('31 and 11, certificate', R(31, 1), log=[TWICE, E2, E3], cert=104, breaks=[31, 11])
case('31 and 13', R(31, 2), log=[W1, entry_of(102, (2, 9, 1), (4, 9, 1)), E3], breaks=[31, 13])
for place in (0, 3, 7):
    others = [(k, 7 + k, 5) for k in range(1, 8)]
    eight = others[:place] + [(9, 7, 100)] + others[place:]
    k = str(place + 1)
    case('request ' + k + ' of eight', (0, 101, 101, 0, 1), cert=101, log=[entry_of(101, *eight)])
    case('request ' + k + ' of eight, unsigned', (0, 100, 101, 0, 0), cert=101, log=[entry_of(101, *eight)], no=[3 + place])
    case('request ' + k + ' of eight, the others unsigned', (0, 101, 101, 0, 1), cert=101, log=[entry_of(101, *eight)],
         no=[3 + i for i in range(8) if i != place])
    case('13, request ' + k + ' of eight', R(13, 1), cert=101, log=[entry_of(101, *eight)], conf=(7, 99, 100))
    case('kind 2, request ' + k + ' of eight', (0, 101, 101, 0, 1), kind=2, log=[entry_of(101, *eight)], wanted=9)
    case("10, kind 2, request " + k + " of eight, another request's nonce wanted", R(10), kind=2, log=[entry_of(101, *eight)], wanted=1)
    case('10, kind 2, request ' + k + ' of eight, unsigned', R(10), kind=2, log=[entry_of(101, *eight)], wanted=9, no=[2 + place])
case('two requests with the wanted nonce', (0, 101, 101, 0, 1), kind=2, log=[entry_of(101, (3, 9, 5), (3, 7, 100))])
case("10, kind 2, the wanted request in the entry before the last", R(10), kind=2, log=[entry(101, 3, 7, 100), entry_of(102, (2, 9, 5), (4, 8, 5))])
case('10, kind 2, a tick last', R(10), kind=2, log=[entry(101, 3, 7, 100), entry_of(102)])
case('10, kind 2, one tick', R(10), kind=2, log=[entry_of(101)])
case('ticks alone', (0, 100, 102, 0, 0), cert=102, log=[entry_of(101), entry_of(102)])
case('9, behind a tick', R(9, 3), log=Q, no=[verdict(Q, 3)])
case('9, before a tick', R(9, 1), log=Q, no=[verdict(Q, 1)])
case("11, a tick's t", R(11, 2), log=[Q[0], entry_of(105), Q[2]])
case('13, behind a tick', R(13, 3), log=[E1, entry_of(102), entry(103, 3, 7, 102)])
case('6, a verdict too few for the last request', R(6), log=T, kind=2, verdicts=yes(2, 2, 0, 1))
case('6, a verdict on a tick', R(6), log=T, kind=2, verdicts=yes(2, 2, 1, 2))
case("6, verdict 2 at a request of another counter", R(6), kind=2, log=T, verdicts=bytearray([1, 1, 1, 2, 1]))

# ---- the rows of 1,024 entries in vectors/note1.md, vectors/note5.md and vectors/desk.md, and their neighbours
OWN = [entry(100 + i, i % 256, 7, 99 + i) for i in range(1, 1025)]
case("1,024 entries, all the counter's", (0, 1124, 1124, 0, 1024), cert=1124, log=OWN)
case("1,024 entries, all the counter's, the last unsigned", (0, 1123, 1124, 0, 1023), cert=1124, log=OWN, no=[o(1024)])
case('13, entry 1,024 behind an unsigned one', R(13, 1024), cert=1124, log=OWN, no=[o(1023)])
case('1,024 entries, all unsigned', (0, 100, 1124, 0, 0), cert=1124, log=OWN, no=[o(i) for i in range(1, 1025)])
# entries 2, 5, .., 1022 unsigned, which are 341; the one behind each has the value of the one before it
THIRDS = [entry(100 + i, i % 256, 7, 99 + i if i % 3 == 1 else 98 + i) for i in range(1, 1025)]
case('1,024 entries, every third unsigned', (0, 1124, 1124, 0, 683), cert=1124, log=THIRDS, no=[o(i) for i in range(2, 1025, 3)])
case('1,024 entries, every third unsigned, kind 2', (0, 1124, 1124, 0, 683), kind=2, log=THIRDS, wanted=0,
     no=[o(i, 2) for i in range(2, 1025, 3)])
LONG = [entry(100 + i, i % 256, 7 if i % 64 == 0 else 9, 36 + i) for i in range(1, 1025)]
case('1,024 entries', (0, 1124, 1124, 0, 16), cert=1124, log=LONG)
case('1,024 entries, kind 2', (0, 1124, 1124, 0, 16), kind=2, log=LONG, wanted=0)
case('1,024 entries, the last unsigned', (0, 1060, 1124, 0, 15), cert=1124, log=LONG, no=[o(1024)])
case('11, certificate behind 1,024 entries, the last unsigned', R(11, 1025), cert=1125, log=LONG, no=[o(1024)])

# the rows of many entries in vectors/note7.md
SHARED = [entry_of(100 + i, *((k, 6 + k, 99 + i) for k in range(1, 9))) for i in range(1, 129)]
case('128 entries of eight requests', (0, 228, 228, 0, 128), cert=228, log=SHARED)
case('4, a tick behind 1,024 requests', R(4), cert=229, log=SHARED + [entry_of(229)])
case("4, a tick's count behind 1,024 requests, whole in the bytes", R(4), cert=229, log=SHARED + [entry_of(229)], lent=32324)
case("5, a tick's count behind 1,024 requests, not whole in the bytes", R(5), cert=229, log=SHARED + [entry_of(229)], lent=32323)
case('1,024 ticks', (0, 100, 1124, 0, 0), cert=1124, log=[entry_of(100 + i) for i in range(1, 1025)])
assert len(write(1, (7, 100, 100), (1124, nonce(5)), OWN)) == 57404

# 12 is never given
NUMBERS = [n for n in ORDER if n != 12]
assert singles == set(NUMBERS), singles
missing = set(zip(NUMBERS, NUMBERS[1:])) - pairs
assert not missing, missing
made = [text for text in given if text is not None] if sys.argv[1:] == ['stdin'] else lines
sys.stdout.write('\n'.join(made) + '\n')
