/* Object mesh: triangles of the objects along a road, with an account of each.
 *
 * For C99 and C++11, and later, on x86-64; link with libobject_mesh.a, which
 * `rt lib --cpu=x86-64` in crates/object_mesh writes to out/ there. No function keeps memory, calls
 * the operating system or fails: every input is answered, and a refused call changes no buffer.
 *
 * ---- What a caller sees to
 *
 * Pointers    A slice passes as a pointer and a length in elements: so many elements lie there, aligned
 *             as their type is. The scene is not written to meanwhile, and the buffers overlap neither
 *             each other nor the scene; they need not be cleared. Where a length is 0 nothing is read or
 *             written through its pointer. Null there is outside what is proved, since a slice has an
 *             address; as compiled it is answered like any other empty slice.
 * Mode        Floating-point arithmetic is as a thread starts with it: round to nearest, subnormal
 *             numbers not flushed, exceptions masked (MXCSR 0x1F80, its flags apart). Otherwise answers
 *             are not those that are proved: with subnormals flushed, as in a program linked with -Ofast
 *             or on a physics engine's thread, a box of height 1e-40 is offered 10 triangles and not 12.
 *             With exceptions unmasked a call can fault, on ordinary scenes too: the compiled code also
 *             works on numbers that it does not use. Such a thread sets the mode around its calls:
 *                 unsigned mode = _mm_getcsr(); _mm_setcsr(0x1F80); ... _mm_setcsr(mode);
 * Stack       Build takes up to 27 KB, Measure as much, whatever the scene's size, Bound and Validate
 *             under 1 KB. This was measured (27,024 bytes, closed outlines), and is not proved.
 * Threads     There is no state. Any number of threads may call at once, each with buffers of its own;
 *             they may share a scene.
 *
 * ---- Scene bytes, little-endian
 *
 * Object records from byte 0 on, end to end, then the u32 offset of each record, then the u32 number
 * of records. A record is a kind byte (enum object_mesh_kind), a u32 id (ids may repeat), then
 *   0 unsized, 1 box, 2 cylinder:
 *       position (3 f32); sine and cosine of heading, of pitch, of roll (6 f64);
 *       then for a box length, width, height, for a cylinder radius, height (f32)
 *   3 open, 4 closed outline:
 *       u16 outer corners, u16 holes, a u16 corner count per hole, then outer and hole corners;
 *       a corner is base and top (6 f32)
 *   5 sweep, 6 round sweep:
 *       u16 sections, each a left and a right corner
 * Limits: 16,777,216 bytes, 65,536 objects, 32 holes, 512 corners in an outline with its holes, 4,096
 * sections. Each f32 is finite and at most 16,777,216 in magnitude, each f64 finite and at most 1.
 *
 * ---- Buffers
 *
 * vertices  3 f32 a vertex, metres, right-handed, Z up
 * normals   3 f32 a vertex, of unit length up to rounding. Where the triangles of a face nearly cancel
 *           (their cross products add up to less than 1e-19) the length lies between 0.7 and 1.6, or
 *           the normal is 0, 0, 1: as in the Rust that this is a port of
 * indices   3 u32 a triangle
 * spans     5 u32 an object that kept a triangle, in the order of the objects:
 *           id, first vertex, vertex behind the last, first index, index behind the last
 * account   4 u32 an object: triangles offered by the price list, kept, too thin to draw, log entries;
 *           offered = kept + thin
 * log       4 u32 an entry: a mark (enum object_mesh_mark) and three numbers; the objects' entries one
 *           behind the other (closed outlines have them)
 * millimetres
 *           3 i64 a vertex: the vertices in whole millimetres, so as many entries as there are vertex
 *           numbers. Each is the exact product of the f32 and 1,000, rounded to the nearest whole
 *           number, a half going away from zero: 0.0625 gives 63, -0.0625 gives -63, and -0.0 gives 0.
 *           No entry passes 2^37 in magnitude
 */
#ifndef OBJECT_MESH_H
#define OBJECT_MESH_H

#include <stddef.h>
#include <stdint.h>

#ifdef __cplusplus
extern "C" {
#endif

/* The kind byte of an object's record. */
enum object_mesh_kind {
    OBJECT_MESH_KIND_UNSIZED = 0,
    OBJECT_MESH_KIND_BOX = 1,
    OBJECT_MESH_KIND_CYLINDER = 2,
    OBJECT_MESH_KIND_OPEN_OUTLINE = 3,
    OBJECT_MESH_KIND_CLOSED_OUTLINE = 4,
    OBJECT_MESH_KIND_SWEEP = 5,
    OBJECT_MESH_KIND_ROUND_SWEEP = 6,
};

/* Why a call is refused; object_mesh_refusal_text says it in English. The first that is met is given,
 * from 1 on, record by record; build judges its buffers after the scene, by 8, 9, 10 and then 12.
 * 3 to 7 name the record as the object, or the number of records where the last one does not end at the
 * trailer (3); the others name object 0. */
enum object_mesh_refusal {
    OBJECT_MESH_REFUSED_NONE = 0,
    OBJECT_MESH_REFUSED_LENGTH = 1,
    OBJECT_MESH_REFUSED_TRAILER = 2,
    OBJECT_MESH_REFUSED_START = 3,
    OBJECT_MESH_REFUSED_EXTENT = 4,
    OBJECT_MESH_REFUSED_KIND = 5,
    OBJECT_MESH_REFUSED_COUNTS = 6,
    OBJECT_MESH_REFUSED_NUMBERS = 7,
    OBJECT_MESH_REFUSED_SHORT_VERTICES = 8,
    OBJECT_MESH_REFUSED_SHORT_INDICES = 9,
    OBJECT_MESH_REFUSED_SHORT_RECORDS = 10,
    OBJECT_MESH_REFUSED_PARTIAL_VERTEX = 11,
    OBJECT_MESH_REFUSED_SHORT_MILLIMETRES = 12,
};

static inline const char *object_mesh_refusal_text(uint32_t refusal) {
    switch (refusal) {
    case OBJECT_MESH_REFUSED_NONE: return "not refused";
    case OBJECT_MESH_REFUSED_LENGTH: return "the scene has under 4 bytes, or over 16,777,216";
    case OBJECT_MESH_REFUSED_TRAILER: return "over 65,536 objects, or the trailer is longer than the scene";
    case OBJECT_MESH_REFUSED_START: return "the records do not lie end to end from byte 0 to the trailer";
    case OBJECT_MESH_REFUSED_EXTENT: return "a record's bytes pass the trailer's start";
    case OBJECT_MESH_REFUSED_KIND: return "a record's kind is not known";
    case OBJECT_MESH_REFUSED_COUNTS: return "a count is over its limit";
    case OBJECT_MESH_REFUSED_NUMBERS: return "a number is not finite, or over its limit";
    case OBJECT_MESH_REFUSED_SHORT_VERTICES: return "the buffer of vertices or of normals is shorter than measured";
    case OBJECT_MESH_REFUSED_SHORT_INDICES: return "the buffer of indices is shorter than measured";
    case OBJECT_MESH_REFUSED_SHORT_RECORDS: return "the buffer of spans, account or log is shorter than measured";
    case OBJECT_MESH_REFUSED_PARTIAL_VERTEX: return "the vertices' length is no multiple of 3";
    case OBJECT_MESH_REFUSED_SHORT_MILLIMETRES: return "the buffer of millimetres is shorter than measured";
    default: return "unknown refusal";
    }
}

/* What validate says of a mesh. */
enum object_mesh_verdict {
    OBJECT_MESH_VERDICT_OK = 0,
    OBJECT_MESH_VERDICT_EMPTY = 1,               /* there are no triangles */
    OBJECT_MESH_VERDICT_NON_FINITE_VERTEX = 2,   /* a vertex has a NaN or an infinity */
    OBJECT_MESH_VERDICT_INDEX_OUT_OF_RANGE = 3,  /* a triangle's index is past the vertices */
    OBJECT_MESH_VERDICT_DEGENERATE_TRIANGLE = 4, /* one has no area, repeats a vertex or lacks one */
};

/* The mark of a log entry, with its other three numbers. Corners count from 0, the outer ones and then
 * the holes', as in the record; holes count from 0. The entries of an object are one marked 7 alone, or
 * those marked 6, then 4 and 5, then 1 and 2, then 3. */
enum object_mesh_mark {
    OBJECT_MESH_MARK_EAR_CUT = 1,         /* a, b, c: the ear's corners */
    OBJECT_MESH_MARK_CORNER_DROPPED = 2,  /* a, b, c: corner b, between a and c */
    OBJECT_MESH_MARK_CORNER_LEFT = 3,     /* a, 0, 0: a corner of the ring that is left */
    OBJECT_MESH_MARK_HOLE_JOINED = 4,     /* hole, place in the ring before the splice, place in the turned hole */
    OBJECT_MESH_MARK_HOLE_NOT_JOINED = 5, /* hole, 0, 0: it could not be joined */
    OBJECT_MESH_MARK_HOLE_SKIPPED = 6,    /* hole, 0, 0: it has no area */
    OBJECT_MESH_MARK_NO_LID = 7,          /* 0, 0, 0: the outer ring has no area */
};

/* The answer of bound, measure and build: the refusal (enum object_mesh_refusal), the object named, and
 * how many numbers each buffer gets, for bound at most (all 0 on a refusal). The millimetres get as many
 * as the vertices. */
typedef struct object_mesh_answer {
    uint32_t refusal;
    uint32_t object;
    uint32_t vertices;
    uint32_t normals;
    uint32_t indices;
    uint32_t spans;
    uint32_t account;
    uint32_t log;
    uint32_t millimetres;
} object_mesh_answer;

/* The answer of validate. refusal: OBJECT_MESH_REFUSED_NONE or OBJECT_MESH_REFUSED_PARTIAL_VERTEX.
 * object: 0. verdict: enum object_mesh_verdict. place: the vertex that is not finite, or the triangle.
 * index, count: the index out of range, and how many vertices there are. What a verdict does not have
 * is 0. */
typedef struct object_mesh_judgement {
    uint32_t refusal;
    uint32_t object;
    uint32_t verdict;
    uint32_t index;
    uint64_t place;
    uint64_t count;
} object_mesh_judgement;

/* Counts of numbers that suffice for build, told by the records' kinds and counts: never fewer than
 * measure's, and the same refusals. It only reads the scene, and so is the way to size buffers for one
 * build: buffers of these lengths are never too short (8 to 10, 12), and build draws only once.
 * They may be longer than needed, where triangles are thin or a lid is not wholly cut; build answers
 * what was written. Refusals 1 to 7. */
object_mesh_answer object_mesh_bound(const uint8_t *scene, size_t scene_len);

/* How many numbers build writes to each buffer, exactly. For this everything is drawn, which takes up to
 * as long as build: it is for a caller who wants the counts themselves, or buffers without any room to
 * spare. Refusals 1 to 7. */
object_mesh_answer object_mesh_measure(const uint8_t *scene, size_t scene_len);

/* Writes the mesh, spans, account, log and millimetres from the start of each buffer; what lies behind
 * is kept. Refusals 1 to 10 and 12. */
object_mesh_answer object_mesh_build(const uint8_t *scene, size_t scene_len,
                                     float *vertices, size_t vertices_len,
                                     float *normals, size_t normals_len,
                                     uint32_t *indices, size_t indices_len,
                                     uint32_t *spans, size_t spans_len,
                                     uint32_t *account, size_t account_len,
                                     uint32_t *log, size_t log_len,
                                     int64_t *millimetres, size_t millimetres_len);

/* Whether a mesh can back a physics collider, and if not, why. */
object_mesh_judgement object_mesh_validate(const float *vertices, size_t vertices_len,
                                           const uint32_t *indices, size_t indices_len);

#ifdef __cplusplus
}
#endif
#endif
