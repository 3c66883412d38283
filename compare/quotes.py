#!/usr/bin/env python3
"""Makes the scenes of crates/test_quotes and the text that the program must print, by running the original Rust.

  compare/quotes.py ANSWERS        from the repository's root; ANSWERS is the program `answers` that compare/reference builds

The samples and the scenes of compare/examples.txt come first, then scenes made here: ids that repeat, no object, as many
objects as 4,096 bytes hold, 4,096 and 4,097 bytes; then, from each family of compare/reference, those of the first seeds
that have at most 4,096 bytes. The text is written here from document 01, section 8, out of the Rust's account and counts.
"""
import struct, subprocess, sys, tempfile

PER_FAMILY, LARGEST = 3, 4096

def run(*words):
    return subprocess.run([sys.argv[1], *words], capture_output=True, check=True, text=True).stdout.splitlines()

def ids(scene):
    n = struct.unpack('<I', scene[-4:])[0]
    starts = struct.unpack('<%dI' % n, scene[len(scene) - 4 - 4 * n:-4])
    return [struct.unpack_from('<I', scene, start + 1)[0] for start in starts]

def text(scene, answer, buffers):
    if answer[0] == 'refused':
        return 'refused %s\n' % answer[1]
    vertices, _, indices, spans, account, _ = map(int, answer[1:7])
    numbers = [int(word, 16) for word in buffers['account']]
    assert len(numbers) == account == 4 * len(ids(scene))
    lines = ['object %d offered %d kept %d thin %d' % (name, *numbers[4 * k:4 * k + 3]) for k, name in enumerate(ids(scene))]
    lines.append('mesh %d vertices %d indices %d spans' % (vertices // 3, indices, spans // 5))
    assert answer[-1] in ('ok', 'empty')
    lines.append('verdict ' + answer[-1])
    return ''.join(line + '\n' for line in lines)

def answered(lines):
    """Each scene of the format that `answers` prints, with its text."""
    scene = answer = None
    buffers = {}
    for line in lines:
        word = line.split()
        if word[:1] == ['scene']:
            if answer:
                yield scene, text(scene, answer, buffers)
            scene, answer, buffers = bytes.fromhex(word[2] if len(word) > 2 else ''), None, {}
        elif word[:1] == ['answer']:
            answer = word[1:]
        elif word:
            buffers[word[0]] = word[1:]
    if answer:
        yield scene, text(scene, answer, buffers)

def joined(records):
    starts = [sum(map(len, records[:k])) for k in range(len(records))]
    return b''.join(records) + struct.pack('<%dI' % (len(records) + 1), *starts, len(records))

def sweep(kind, name, corners=()):
    return struct.pack('<BIH', kind, name, len(corners)) + b''.join(struct.pack('<12f', *c) for c in corners)

def post(kind, name, *sizes):
    return struct.pack('<BI3f6d%df' % len(sizes), kind, name, 0, 0, 0, 0, 1, 0, 1, 0, 1, *sizes)

def tube(n):
    return [(k, -1, 0, k, -1, 2, k, 1, 0, k, 1, 2) for k in range(n)]

box = post(1, 7, 4, 2, 1.5)
most = [sweep(5 + k % 2, 0xffffffff - k // 2) for k in range(372)]
made = [
    joined([]), joined([box]), joined([box, box]), joined([box, post(2, 7, 1, 2), post(0, 7), post(1, 0, 0, 0, 3), sweep(5, 4294967295)]),
    joined([sweep(5, 3)]), joined([post(0, 1000000000), post(0, 999999999), post(0, 10), post(0, 9)]),
    joined([sweep(6, 1, tube(84))]), joined([sweep(5, 1, tube(84))]), joined([post(2, k, 1, 2) for k in range(52)]),
    joined(most), joined(most[:-1] + [sweep(5, 5, tube(1))])[:4096], joined(most) + b'\0', bytes(4096), bytes(4097),
]
assert len(joined(most)) == 4096

found = list(answered(open('compare/examples.txt', encoding='ascii')))
with tempfile.NamedTemporaryFile('w', suffix='.hex') as file:
    samples = [open('samples/%s.scene' % name, 'rb').read() for name in ('box', 'street')]
    short = [scene for scene in samples + made if 0 < len(scene) <= LARGEST]
    file.write(''.join(scene.hex() + '\n' for scene in short))
    file.flush()
    found = list(answered(run(file.name))) + found
for family in run('--families'):
    found += answered(run('--family', family, '--seed', '0', '--count', str(PER_FAMILY)))
kept = {scene: quote for scene, quote in found if len(scene) <= LARGEST}
kept.update({scene: 'refused 1\n' for scene in made + [b''] if len(scene) > LARGEST or not scene})
with open('crates/test_quotes/data/scenes', 'wb') as scenes:
    scenes.write(b''.join(len(scene).to_bytes(4, 'little') + scene for scene in kept))
with open('crates/test_quotes/stdout', 'w', encoding='ascii') as lines:
    lines.write(''.join(kept.values()))
refusals = {n: sum(quote == 'refused %d\n' % n for quote in kept.values()) for n in range(1, 11)}
print(len(kept), 'scenes; refusals', refusals, '; longest text', max(map(len, kept.values())))
