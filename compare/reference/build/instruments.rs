//! The account and the log (document 01, sections 6 and 7): calls of
//! `crate::record` that take copies or shared borrows and answer nothing, so
//! that they cannot change the mesh.

use crate::text::Edit;

pub const OBJECT_MESH: &[Edit] = &[
    Edit {
        times: 1,
        old: "        for object in self.objects() {\n",
        new: "        for object in self.objects() {\n            crate::record::object();\n",
    },
    // face
    Edit {
        times: 1,
        old: "        if n.length() < MIN_AREA {\n            continue;\n        }\n",
        new: "        if n.length() < MIN_AREA {\n            crate::record::thin();\n            continue;\n        }\n        crate::record::kept();\n",
    },
    // outline
    Edit {
        times: 1,
        old: "        let triangles = triangulate(&flat, &starts);\n",
        new: "        crate::record::lid(&flat, &starts);\n        let triangles = triangulate(&flat, &starts);\n",
    },
    // triangulate
    Edit {
        times: 1,
        old: "            if k == 0 {\n                return Vec::new();\n            }\n            continue;\n",
        new: "            if k == 0 {\n                crate::record::no_outer_ring();\n                return Vec::new();\n            }\n            crate::record::hole_skipped(k - 1);\n            continue;\n",
    },
    Edit {
        times: 1,
        old: "            triangles.push([a, b, c]);\n            ring.remove(i);\n",
        new: "            crate::record::ear(a, b, c);\n            triangles.push([a, b, c]);\n            ring.remove(i);\n",
    },
    Edit {
        times: 1,
        old: "            Some(i) => {\n                ring.remove(i);\n",
        new: "            Some(i) => {\n                crate::record::dropped(corner(i));\n                ring.remove(i);\n",
    },
    Edit {
        times: 1,
        old: "            None => return triangles,\n",
        new: "            None => {\n                crate::record::left(&ring);\n                return triangles;\n            }\n",
    },
    Edit {
        times: 1,
        old: "    if turn(ring[0], ring[1], ring[2]) > 0.0 {\n",
        new: "    crate::record::left(&ring);\n    if turn(ring[0], ring[1], ring[2]) > 0.0 {\n",
    },
    // bridge
    Edit {
        times: 1,
        old: "    let Some((x, mut target)) = hit else {\n        return;\n",
        new: "    let Some((x, mut target)) = hit else {\n        crate::record::hole_unjoined(hole);\n        return;\n",
    },
    Edit {
        times: 1,
        old: "    let from_m = hole[j..]",
        new: "    crate::record::hole_joined(hole, target, j);\n    let from_m = hole[j..]",
    },
];
