// How long record files take to be read, held to the open rulebook, and stored and written again, against copying their bytes.
use std::hint::black_box;
use std::time::Instant;

unsafe extern "C" {
    fn panel_read(bytes: *const u8, len: usize) -> usize;
    fn panel_obey(bytes: *const u8, len: usize) -> usize;
    fn panel_rewrite(bytes: *const u8, len: usize, words: *mut u32, room: usize, out: *mut u8, size: usize) -> usize;
}

#[derive(Clone, Copy)]
enum Shape {
    Wide,
    Rows,
    Deep,
}

// A node record, and then its children.
fn record(out: &mut Vec<u8>, name: u32, children: u16) {
    out.extend(name.to_be_bytes());
    out.extend(children.to_be_bytes());
    out.extend([0, 0]);
}

// A copy of about so many nodes: one node with all as children, rows of 16, or chains of 32 below the root.
fn copy(shape: Shape, nodes: usize) -> Vec<u8> {
    let mut out = Vec::new();
    let below = match shape {
        Shape::Wide => 1,
        Shape::Rows => 17,
        Shape::Deep => 32,
    };
    let groups = (nodes - 1) / below;
    record(&mut out, 0, groups as u16);
    for g in 0..groups as u32 {
        match shape {
            Shape::Wide => record(&mut out, g, 0),
            Shape::Rows => {
                record(&mut out, g, 16);
                (0..16).for_each(|k| record(&mut out, k, 0));
            }
            Shape::Deep => (0..32).for_each(|k| record(&mut out, if k == 0 { g } else { 7 }, (k < 31) as u16)),
        }
    }
    let count = out.len() / 8;
    out.extend((8 * count as u32 + 8).to_be_bytes());
    out.extend((count as u16).to_be_bytes());
    out.extend([1, 1]);
    out
}

// The least time of some runs, in nanoseconds.
fn least(mut f: impl FnMut()) -> f64 {
    (0..15)
        .map(|_| {
            let start = Instant::now();
            (0..20).for_each(|_| f());
            start.elapsed().as_nanos() as f64 / 20.0
        })
        .fold(f64::MAX, f64::min)
}

fn main() {
    println!("{:6} {:>6} | {:>9} {:>9} {:>9} ns/node | against a copy of the bytes", "shape", "nodes", "read", "obey", "rewrite");
    for shape in [Shape::Wide, Shape::Rows, Shape::Deep] {
        for nodes in [100, 1000, 4096] {
            let file = copy(shape, nodes);
            let count = file.len() / 8 - 1;
            let mut words = vec![0u32; 3 * 4096];
            let mut out = vec![0u8; file.len()];
            let (p, n) = (file.as_ptr(), file.len());
            assert_eq!(unsafe { panel_read(p, n) }, count + 1);
            assert_eq!(unsafe { panel_obey(p, n) }, count + 1);
            let len = unsafe { panel_rewrite(p, n, words.as_mut_ptr(), words.len(), out.as_mut_ptr(), out.len()) };
            assert_eq!((len, &out), (n, &file));
            let read = least(|| { black_box(unsafe { panel_read(p, n) }); });
            let obey = least(|| { black_box(unsafe { panel_obey(p, n) }); });
            let rewrite = least(|| { black_box(unsafe { panel_rewrite(p, n, words.as_mut_ptr(), words.len(), out.as_mut_ptr(), out.len()) }); });
            let copied = least(|| { out.copy_from_slice(black_box(&file)); black_box(&out); });
            let name = match shape { Shape::Wide => "wide", Shape::Rows => "rows", Shape::Deep => "deep" };
            println!(
                "{name:6} {count:6} | {:9.1} {:9.1} {:9.1}         | {:5.0} {:5.0} {:5.0}",
                read / count as f64, obey / count as f64, rewrite / count as f64, read / copied, obey / copied, rewrite / copied
            );
        }
    }
}
