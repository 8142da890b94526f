// How long a round over an area takes, against copying the words of the three trees.
use std::collections::BTreeMap;
use std::hint::black_box;
use std::time::Instant;

unsafe extern "C" {
    fn panel_rounds(archive: *const u8, n: usize, field: *const u8, m: usize, bench: *const u8, k: usize, times: u32) -> usize;
}

// Rows of columns, as a copy has them under its root.
type Rows = BTreeMap<u32, Vec<u32>>;

fn file(rows: &Rows, kind: u8) -> Vec<u8> {
    let mut out = Vec::new();
    let mut record = |name: u32, children: usize| {
        out.extend(name.to_be_bytes());
        out.extend((children as u16).to_be_bytes());
        out.extend([0, 0]);
    };
    record(0, rows.len());
    for (row, columns) in rows {
        record(*row, columns.len());
        columns.iter().for_each(|c| record(*c, 0));
    }
    let count = out.len() / 8;
    out.extend((8 * count as u32 + 8).to_be_bytes());
    out.extend((count as u16).to_be_bytes());
    out.extend([kind, 1]);
    out
}

fn rows(nodes: usize, columns: impl Fn(u32) -> Vec<u32>) -> Rows {
    let each = 1 + columns(0).len();
    (0..((nodes - 1) / each) as u32).map(|r| (r, columns(r))).collect()
}

// Archive, field and bench of each kind of round.
fn panels(nodes: usize) -> Vec<(&'static str, [Rows; 3])> {
    let plain = rows(nodes, |_| (0..16).collect());
    let mut one = plain.clone();
    one.get_mut(&0).unwrap()[15] = 99;
    let field = rows(nodes, |_| (0..15).chain([20]).collect());
    let bench = rows(nodes, |_| (0..15).chain([30]).collect());
    // Each side removes the rows that the other edits.
    let edited = rows(nodes, |_| (0..16).collect()).into_iter().filter(|(r, _)| r % 2 == 0).map(|(r, c)| (r, c[1..].to_vec())).collect::<Rows>();
    let other = rows(nodes, |_| (0..16).collect()).into_iter().filter(|(r, _)| r % 2 == 1).map(|(r, c)| (r, c[1..].to_vec())).collect::<Rows>();
    let wide = |step: u32| rows(nodes, |_| vec![]).into_keys().map(|r| (step * r, vec![])).collect::<Rows>();
    vec![
        ("equal copies", [plain.clone(), plain.clone(), plain.clone()]),
        ("one change", [plain.clone(), one, plain.clone()]),
        ("all rows changed", [plain.clone(), field, bench]),
        ("all in conflict", [plain, edited, other]),
        ("one wide node", [wide(2), wide(3), wide(5)]),
    ]
}

fn least(mut f: impl FnMut()) -> f64 {
    (0..7)
        .map(|_| {
            let start = Instant::now();
            f();
            start.elapsed().as_nanos() as f64
        })
        .fold(f64::MAX, f64::min)
}

fn main() {
    println!("{:18} {:>6} {:>8} {:>9} | {:>8} {:>12}", "round", "nodes", "archive", "us", "ns/node", "against copy");
    for size in [100, 1000, 4096] {
        for (name, trees) in panels(size) {
            let [o, a, b] = [file(&trees[0], 2), file(&trees[1], 1), file(&trees[2], 1)];
            let nodes = (o.len() + a.len() + b.len()) / 8 - 3;
            let run = |times| unsafe { panel_rounds(o.as_ptr(), o.len(), a.as_ptr(), a.len(), b.as_ptr(), b.len(), times) };
            let made = run(1);
            assert!(made > 0, "{name} is refused");
            // The loading is in both, so the difference is so many rounds.
            let round = (least(|| { black_box(run(101)); }) - least(|| { black_box(run(1)); })) / 100.0;
            let words = vec![1u32; 3 * nodes];
            let mut out = vec![0u32; 3 * nodes];
            let copy = least(|| for _ in 0..100 { out.copy_from_slice(black_box(&words)); black_box(&out); }) / 100.0;
            println!("{name:18} {nodes:6} {:8} {:9.1} | {:8.1} {:12.0}", made - 1, round / 1000.0, round / nodes as f64, round / copy);
        }
    }
}
