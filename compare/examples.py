#!/usr/bin/env python3
"""Writes stored scenes and the Rust's answers as the lists of crates/test_built/specs/Outlines.antt (outlines, lists of
objects) and crates/test_built/specs/Solids.antt (solids, sweeps) and, the refused ones, at the end of crates/test_samples/specs/Examples.antt.

  compare/examples.py ANSWERS          prints these lists

ANSWERS has the format that `answers` of compare/reference prints: `scene NAME HEX`, then `answer refused NUMBER OBJECT`
or `answer ok ..` and the words of each buffer in hexadecimal.
"""
import sys

# the buffers of 32-bit words; the millimetres, of 64-bit words, come last
BUFFERS = ['vertices', 'normals', 'indices', 'spans', 'account', 'log']
VERDICTS = {'ok': 0, 'empty': 1}

def scenes(path):
    found = []
    for line in open(path, encoding='ascii'):
        word = line.split()
        if not word:
            continue
        if word[0] == 'scene':
            found.append({'name': word[1], 'bytes': word[2] if len(word) > 2 else ''})
        elif word[0] == 'answer':
            found[-1]['answer'] = word[1:]
        else:
            found[-1][word[0]] = word[1:]
    return found

def number(digits):
    return '0x' + digits.lower() if digits.strip('0') else '0'

def words(buffer, form='words'):
    return f'({form} {len(buffer)} {number("".join(buffer))})' if buffer else '[]'

def example(scene):
    text, answer = scene['bytes'], scene['answer']
    given = f'(bytes {len(text) // 2} {number(text)})' if text else '[]'
    if answer[0] == 'refused':
        return f'refused_as {given} {answer[1]} {answer[2]}'
    buffers = [words(scene[b]) for b in BUFFERS] + [words(scene['millimetres'], 'longs')]
    return f'built_as {given} {VERDICTS[answer[-1]]} ' + ' '.join(buffers)

# the scenes by the first letter of their names
LISTS = {'lists': 'a', 'outlines': 'bcdefl', 'solids': 'ghi', 'sweeps': 'jk', 'refusals': 'm'}

found = scenes(sys.argv[1])
for name, letters in LISTS.items():
    print(f'\nunfoldable pub {name} : List Example\n{name} =')
    for scene in found:
        if scene['name'][0] in letters:
            print(f'    -- {scene["name"][scene["name"].index("-") + 1:].replace("-", " ")}\n    {example(scene)}\n    ∷')
    print('    []')
