"""Times the library's cutting of a ring beside that of the real earcut, in one run: `python3 compare/earcut.py`, from the
repository's root, after `rt lib --cpu=x86-64` in crates/object_mesh. It needs cc, numpy and mapbox_earcut (Debian: python3-mapbox-earcut).

earcut may cut elsewhere, and keeps no log. The library does not export its cutting: its time is what a Measure of the
closed outline takes longer than one of the same outline left open, as in the benchmark's table of cutting alone."""
import ctypes, math, os, struct, subprocess, tempfile, time
import mapbox_earcut, numpy

LIBRARY = 'crates/object_mesh/out/libobject_mesh.a'
ROUNDS = 400
KINDS = {'open': 3, 'closed': 4}


class Answer(ctypes.Structure):
    _fields_ = [(name, ctypes.c_uint32) for name in 'refusal object vertices normals indices spans account log millimetres'.split()]


def linked():
    """object_mesh_measure of the static library."""
    folder = tempfile.mkdtemp()
    shared = os.path.join(folder, 'library.so')
    subprocess.run(['cc', '-shared', '-o', shared, '-Wl,--whole-archive', LIBRARY, '-Wl,--no-whole-archive'], check=True)
    measure = ctypes.CDLL(shared).object_mesh_measure
    measure.restype, measure.argtypes = Answer, [ctypes.c_char_p, ctypes.c_size_t]
    return measure


def turned(radius, share):
    return radius * math.cos(2 * math.pi * share), radius * math.sin(2 * math.pi * share)


def convex(n):
    return [turned(100, i / n) for i in range(n)]


def star(n):
    return [turned(100 if i % 2 else 30, i / n) for i in range(n)]


def comb(n):
    half = n // 2
    return [(float(i), -1.0) for i in range(n - half)] + [(float(i), 0.0 if i % 2 else 10.0) for i in reversed(range(half))]


def spiral(n):
    half = n // 2
    out = [(s, 0) for s in range(half)] + [(n - 1 - i, 3) for i in range(half, n)]
    return [turned(100 * (.05 + .95 * s / half) - inward, 6 * s / half) for s, inward in out]


def scene(ring, kind):
    corners = b''.join(struct.pack('<6f', x, y, 0, x, y, 3) for x, y in ring)
    return struct.pack('<BIHH', KINDS[kind], 1, len(ring), 0) + corners + struct.pack('<II', 0, 1)


def timed(action):
    start = time.perf_counter()
    action()
    return time.perf_counter() - start


def shortest(actions):
    """The shortest time of each, taken in turn."""
    return [min(times) for times in zip(*([timed(a) for a in actions] for _ in range(ROUNDS)))]


def main():
    measure = linked()
    print('| ring | corners | earcut µs | library µs | library / earcut |\n|---|--:|--:|--:|--:|')
    for make in (convex, star, comb, spiral):
        for n in (16, 64, 256, 500):
            ring = make(n)
            corners, ends = numpy.array(ring, dtype=numpy.float32), numpy.array([n], dtype=numpy.uint32)
            closed, opened = scene(ring, 'closed'), scene(ring, 'open')
            assert measure(closed, len(closed)).refusal == 0
            cut, whole, walls = shortest([lambda: mapbox_earcut.triangulate_float32(corners, ends),
                                          lambda: measure(closed, len(closed)), lambda: measure(opened, len(opened))])
            print(f'| {make.__name__} | {n} | {cut * 1e6:.1f} | {(whole - walls) * 1e6:.1f} | {(whole - walls) / cut:.2f} |')


main()
