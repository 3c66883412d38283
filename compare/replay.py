#!/usr/bin/env python3
"""Makes the scenes of crates/test_replay and the lines that the program must print, by running the original Rust.

  compare/replay.py ANSWERS        from the repository's root; ANSWERS is the program `answers` that compare/reference builds

The scenes of compare/examples.txt come first; then, from each family of compare/reference, those of the first seeds that have
at most 1,000 bytes.
"""
import subprocess, sys

PER_FAMILY, LARGEST = 24, 1000

def run(*words):
    return subprocess.run([sys.argv[1], *words], capture_output=True, check=True, text=True).stdout.splitlines()

def answered(text):
    """Each scene of the format that `answers` prints, with its answer's words."""
    scene = None
    for line in text:
        word = line.split()
        if word[:1] == ['scene']:
            scene = bytes.fromhex(word[2] if len(word) > 2 else '')
        elif word[:1] == ['answer']:
            yield scene, ' '.join(word[1:])

found = list(answered(open('compare/examples.txt', encoding='ascii')))
for family in run('--families'):
    found += answered(run('--family', family, '--seed', '0', '--count', str(PER_FAMILY)))
kept = {scene: answer for scene, answer in found if len(scene) <= LARGEST}
with open('crates/test_replay/data/scenes', 'wb') as scenes:
    scenes.write(b''.join(len(scene).to_bytes(4, 'little') + scene for scene in kept))
with open('crates/test_replay/stdout', 'w', encoding='ascii') as lines:
    lines.write(''.join(answer + '\n' for answer in kept.values()))
print(len(kept), 'scenes')
