//! One scene: Measure; Bound; Build on exact, longer and too short buffers and on those of the bound,
//! under several fillings, written and unwritten numbers alike; Validate; refusals.

use reference::answer::words;
use reference::{build, read_scene, validate, Built};

use library::calls::{self, Answer, Buffers};

/// The numbers of each buffer, the millimetres' last.
type Sizes = [u32; 7];

/// The row of a buffer that is too short.
const TOO_SHORT: Sizes = [8, 8, 9, 10, 10, 10, 12];
const MILLIMETRES: usize = 6;

/// Whether the scene is accepted; an error tells the first difference.
pub fn scene(bytes: &[u8], turn: u64) -> Result<bool, String> {
    let filling = [0, 0x7fc0_0001, 0xffff_ffff, 0x3f80_0000][(turn % 4) as usize];
    let objects = match read_scene(bytes) {
        Err((refusal, object)) => {
            let expected = Answer {
                refusal,
                object,
                counts: [0; 7],
            };
            same("measure", &calls::measure(bytes), &expected)?;
            same("bound", &calls::bound(bytes), &expected)?;
            kept(bytes, &lent([7, 8, 9, 5, 4, 3, 6], filling), &expected)?;
            return Ok(false);
        }
        Ok(objects) => objects,
    };
    let built = build(&objects);
    let expected = Answer {
        refusal: 0,
        object: 0,
        counts: counts(&built),
    };
    same("measure", &calls::measure(bytes), &expected)?;
    by_length(bytes, &built, filling, &expected)?;
    verdict(&built)?;
    Ok(true)
}

/// Build on buffers exactly as measured, longer, and of the bound; on those of the bound but for the
/// millimetres; and on too short ones.
fn by_length(bytes: &[u8], built: &Built, filling: u32, expected: &Answer) -> Result<(), String> {
    let counts = expected.counts;
    let most = bound(bytes, counts)?;
    let mut narrow = most;
    narrow[MILLIMETRES] = counts[MILLIMETRES];
    for sizes in [counts, counts.map(|n| n + 1 + n % 5), most, narrow] {
        written(bytes, built, sizes, filling, expected)?;
    }
    for k in (0..7).filter(|&k| counts[k] > 0) {
        too_short(bytes, counts, &[k], filling)?;
        if k != MILLIMETRES && counts[MILLIMETRES] > 0 {
            too_short(bytes, counts, &[k, MILLIMETRES], filling)?;
        }
    }
    if counts[MILLIMETRES] > 0 {
        too_short(bytes, narrow, &[MILLIMETRES], filling)?;
    }
    Ok(())
}

/// These buffers a number too short each: the row of the first of them.
fn too_short(
    bytes: &[u8],
    mut sizes: Sizes,
    buffers: &[usize],
    filling: u32,
) -> Result<(), String> {
    for &k in buffers {
        sizes[k] -= 1;
    }
    let expected = Answer {
        refusal: TOO_SHORT[buffers[0]],
        ..Answer::default()
    };
    kept(bytes, &lent(sizes, filling), &expected)
}

/// The bound of an accepted scene: no count is under Measure's, and the millimetres get as many as
/// the vertices.
fn bound(bytes: &[u8], counts: Sizes) -> Result<Sizes, String> {
    let answer = calls::bound(bytes);
    let most = answer.counts;
    let enough = counts.iter().zip(most).all(|(&n, most)| n <= most);
    let sound = enough && most[MILLIMETRES] == most[0];
    if (answer.refusal, answer.object, sound) == (0, 0, true) {
        return Ok(most);
    }
    Err(format!("bound: {answer:?}, measured {counts:?}"))
}

fn same<T: PartialEq + std::fmt::Debug>(what: &str, got: &T, expected: &T) -> Result<(), String> {
    if got == expected {
        return Ok(());
    }
    Err(format!("{what}: {got:?}, expected {expected:?}"))
}

fn counts(b: &Built) -> Sizes {
    let [v, n, i, s, a, l] = words(b).map(|w| w.len());
    [v, n, i, s, a, l, b.millimetres.len()].map(|n| n as u32)
}

/// Buffers of these sizes, each number telling its place.
fn lent(sizes: Sizes, filling: u32) -> Buffers {
    let fill = |k: usize| (0..sizes[k]).map(|i| filling ^ i).collect();
    let long = |i: u32| i64::from(filling as i32) << 32 | i64::from(filling ^ i);
    Buffers {
        floats: [fill(0), fill(1)],
        numbers: [fill(2), fill(3), fill(4), fill(5)],
        millimetres: (0..sizes[MILLIMETRES]).map(long).collect(),
    }
}

/// A refused Build leaves every buffer as it was.
fn kept(bytes: &[u8], before: &Buffers, expected: &Answer) -> Result<(), String> {
    let mut after = before.clone();
    same("build refused", &calls::build(bytes, &mut after), expected)?;
    same("buffers of a refusal", &after, before)
}

fn written(
    bytes: &[u8],
    built: &Built,
    sizes: Sizes,
    filling: u32,
    expected: &Answer,
) -> Result<(), String> {
    let before = lent(sizes, filling);
    let mut after = before.clone();
    same("build", &calls::build(bytes, &mut after), expected)?;
    let was = before.floats.iter().chain(&before.numbers);
    let is = after.floats.iter().chain(&after.numbers);
    for ((written, was), is) in words(built).iter().zip(was).zip(is) {
        over("buffer", written, was, is)?;
    }
    over(
        "millimetres",
        &built.millimetres,
        &before.millimetres,
        &after.millimetres,
    )
}

/// What was written, and behind it what was there.
fn over<T>(what: &str, written: &[T], was: &[T], is: &[T]) -> Result<(), String>
where
    T: Copy + PartialEq + std::fmt::Debug,
{
    let expected = [written, &was[written.len()..]].concat();
    same(what, &is, &expected.as_slice())
}

/// Validate on the mesh, and on the mesh with faults put in.
fn verdict(built: &Built) -> Result<(), String> {
    judge(&built.vertices, &built.indices)?;
    let (v, i) = (built.vertices.len(), built.indices.len());
    if i > 0 {
        let mut vertices = built.vertices.clone();
        vertices[v / 2] = f32::NAN;
        judge(&vertices, &built.indices)?;
        let mut indices = built.indices.clone();
        indices[i / 2] = (v / 3) as u32;
        judge(&built.vertices, &indices)?;
        indices[i / 2] = indices[i / 2 - 1];
        judge(&built.vertices, &indices)?;
        judge(&built.vertices, &built.indices[..i - 1])?;
        judge(&built.vertices[..v - 1], &built.indices)?;
    }
    Ok(())
}

fn judge(vertices: &[f32], indices: &[u32]) -> Result<(), String> {
    let got = calls::validate(vertices, indices);
    let expected = validate(vertices, indices);
    let expected = calls::Judgement {
        refusal: expected.refusal,
        object: 0,
        verdict: expected.verdict,
        index: expected.index,
        place: expected.place,
        count: expected.count,
    };
    same("validate", &got, &expected)
}
