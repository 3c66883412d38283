//! Records of solids, turned in any way.

use reference::families::rings::on_circle;
use reference::long::record;
use reference::pair::Pair;
use reference::random::Random;
use reference::write::Writer;

pub fn boxed(r: &mut Random) -> Vec<u8> {
    solid(r, 3)
}

pub fn cylinder(r: &mut Random) -> Vec<u8> {
    solid(r, 2)
}

fn solid(r: &mut Random, sizes: usize) -> Vec<u8> {
    let position = [0; 3].map(|_| r.between(-1e4, 1e4) as f32);
    let turn = [0; 3].map(|_| {
        let [cosine, sine] = on_circle(r.unit());
        Pair { sine, cosine }
    });
    let sizes: Vec<f32> = (0..sizes).map(|_| r.between(0.1, 30.0) as f32).collect();
    let scene = Writer::new().solid(r.word() as u32, position, turn, &sizes);
    record(scene.finish())
}
