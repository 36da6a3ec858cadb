#!/usr/bin/env python3
# The expected output of the program host_batches, from document 01 and Notes 1 to 7 of document 02: image and host of host_cases.py and the desk of
# desk.py, run on the lines of crates/host_batches/stdin. What a line says behind its equals sign was worked out by hand or stands in the published
# cases, and is asserted: the figures of the answer, of a batch number, value and each request's own number; and where they are given the CRC-32 of
# the image and that of the proof written, in hex.
import os
import sys
import zlib

sys.dont_write_bytecode = True
from desk import desk
from host_cases import HEAD, LEN, REQUEST, UNTOUCHED, Request, batch, be, call, decode, digest, encode, faults, joined, number, request_at

# ---- a batch on the bytes lent: number, value and the numbers of eight requests, the image after it, and of each request every rule that it breaks

given = set()            # the rules that requests broke: the number given, and each other

def batched(image, requests, verdicts):
    wrong = faults(image)
    broken, done = batch(None if wrong else decode(image), requests, verdicts)
    if wrong:
        broken = broken | {14}
    if broken:
        return [min(broken), 0] + [0] * 8, image
    numbers, value, after = done()
    for rules in numbers:
        given.update((rules[0], behind) for behind in rules)
        if not rules:
            given.add((0, 0))
    after = encode(after)
    assert not faults(after)
    return [0, value] + [(rules or [0])[0] for rules in numbers] + [0] * (8 - len(numbers)), after

# the requests of a line's figures, joined, and their verdicts
def batch_of(figures):
    requests = [Request(bytes([figures[i] % 256]) * 20, figures[i + 1], figures[i + 2]) for i in range(0, len(figures), 4)]
    return joined(requests), figures[3::4]

# ---- the desk's answer to a proof that was written, all verdicts yes

def judged(word, a, image, s):
    if word == 'prove':
        box, wanted = a[2], bytes([a[0] % 256]) * a[1]
    else:
        box = a[0]
        [wanted] = [r.nonce for e in decode(image).log if e.t == a[1] for r in e.requests if r.box == box]
    kind, n = number(s, 2, 2), number(s, 20)
    verdicts = {1: 2, 2: 1}[kind] + (len(s) - number(s, 16)) // REQUEST     # heads and requests are of one length
    answer, broken = desk(s, b'\1' * verdicts, box, wanted)
    assert not broken, (word, a, broken)
    return answer

# ---- the lines

class Table:
    def __init__(self):
        self.image, self.kept, self.lent = bytes(LEN), bytes(LEN), LEN
        self.out = []

    def answered(self, text, figures, image, expected, s=None, shown=''):
        words = expected.split()
        crc, proof = '%08x' % zlib.crc32(image), s and '%08x' % zlib.crc32(s)
        if 'proof' in words:
            assert words[-2:] == ['proof', proof], (text, proof)
            words = words[:-2]
        if 'image' in words:
            assert words[-2:] == ['image', crc], (text, crc)
            words = words[:-2]
        wanted = [int(w) for w in words]
        assert wanted == figures[:len(wanted)] and not any(figures[len(wanted):]), (text, figures, wanted)
        self.image = image
        line = '%s= %s image %s' % (text, ' '.join(map(str, figures)), crc)
        if s:
            line += ' proof %s desk %s' % (proof, ' '.join(map(str, shown)))
        self.out.append(line)

    # a call on the bytes lent
    def made(self, word, a, image):
        if word == 'batch':
            figures, after = batched(image, *batch_of(a))
        elif word == 'joined':
            requests, verdicts = batch_of(a[2:])
            figures, after = batched(image, requests[:a[0]], verdicts[:a[1]])
        elif word == 'again':
            for k in range(1, a[0] + 1):
                figures, after = batched(image, *batch_of([x for box in ([a[1]] if a[1] else range(1, 9)) for x in (k, box, a[2] + k, 1)]))
                assert figures[0] == 0 and not any(figures[2:])
                image = after
        else:
            figures, after, output, _ = call(word, a, image)
            return figures, after, output
        return figures, after, None

    def call(self, text, expected):
        word, a = text.split()[0], [int(f) for f in text.replace(',', ' ').split()[1:]]
        image = self.image[:self.lent]
        figures, after, output = self.made(word, a, image)
        s, shown = None, None
        if word in ('prove', 'last') and figures[0] == 0:
            s = output[:figures[1]]
            assert output[figures[1]:] == UNTOUCHED[figures[1]:]
            shown = judged(word, a, image, s)
        self.answered(text, figures, after + self.image[self.lent:], expected, s, shown)

    def store(self, at, part):
        assert at + len(part) <= LEN
        self.image = self.image[:at] + part + self.image[at + len(part):]

    def edit(self, words):
        if words[:1] == ['word']:
            self.store(int(words[1]), be(int(words[2]), 4))
        elif words[:1] == ['digest']:
            at = int(words[1])
            requests = [request_at(self.image, at + HEAD + REQUEST * k) for k in range(number(self.image, at + 4))]
            self.store(at + 8, digest(requests))
        elif words == ['keep']:
            self.kept = self.image
        elif words == ['undo']:
            self.image = self.kept
        elif words[:1] == ['give']:
            self.lent = int(words[1])
        elif words == ['zero']:
            self.image = bytes(LEN)
        else:
            assert words == [] or words[0] == '#', words

    def row(self, text):
        if '=' in text:
            made, expected = text.split('=')
            self.call(made, expected)
        else:
            self.out.append(text)
            self.edit(text.split())

def main():
    here = os.path.dirname(os.path.abspath(__file__))
    table = Table()
    with open(os.path.join(here, '..', 'crates', 'host_batches', 'stdin')) as lines:
        for text in lines.read().splitlines():
            table.row(text)
    # each number of a request, and each pair of which the first is given; 17 and 29 are apart, and so are 29 and 25, since nothing passes at the
    # clock's end
    numbers = [15, 16, 17, 29, 22, 24, 25]
    pairs = {(a, b) for i, a in enumerate(numbers) for b in numbers[i:]} - {(16, 29), (17, 29), (29, 25)}
    assert (0, 0) in given and not pairs - given, pairs - given
    sys.stdout.write('\n'.join(table.out) + '\n')

if __name__ == '__main__':
    main()
