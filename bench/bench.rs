//! The same boards and picks through the proved library and the original Rust, one after the other, in one process.
//! Prints for each size and make of board the time of both and the ratio, then the growth from n to 2n, pair tests, single calls, then memory.
#[allow(dead_code)] // the benchmark uses a part of the wrapper
#[path = "../hosts/tour.rs"]
mod tour;

/// Moves the code by 16 bytes: where its loops lie in a program alone makes up to 12 % of the time, of both sides.
#[cfg(moved)]
#[used]
static BEFORE: [u8; 16] = [1; 16];

use rgeometry::algorithms::polygonization::two_opt::shim::with_ring;
use rgeometry::probe::{bare_moves, points};
use std::hint::black_box;
use std::time::Instant;
use tour::{Answer, Buffers};

const SIZES: [usize; 4] = [48, 64, 128, 256];
const MAKES: [&str; 2] = ["uniform", "row"];

/// The generator of boards and picks: a linear congruence, its upper half first.
struct Lcg(u32);

impl Lcg {
    fn next(&mut self) -> u32 {
        self.0 = self.0.wrapping_mul(1664525).wrapping_add(1013904223);
        self.0.rotate_right(16)
    }

    fn below(&mut self, n: u32) -> u32 {
        (self.next() as u64 * n as u64 >> 32) as u32
    }
}

struct Board {
    points: Vec<[i32; 2]>,
    picks: Vec<u32>,
}

impl Board {
    /// The points as a call is lent them: their x, and their y.
    fn columns(&self) -> [Vec<i32>; 2] {
        [0, 1].map(|k| self.points.iter().map(|p| p[k]).collect())
    }
}

/// `uniform`: anywhere in the allowed square. `row`: all on one line but two. Both in random order.
fn board(make: &str, n: usize, seed: u32) -> Board {
    let mut r = Lcg(seed);
    let mut points: Vec<[i32; 2]> = Vec::new();
    if make == "row" {
        points.extend((0..n as i32 - 2).map(|k| [3 * k, 2 * k]));
        points.extend([[n as i32, 0], [0, n as i32]]);
    }
    while points.len() < n {
        let p = [0; 2].map(|_| r.below(2_000_000_001) as i64 - 1_000_000_000).map(|v| v as i32);
        if !points.contains(&p) {
            points.push(p);
        }
    }
    for i in (1..n).rev() {
        points.swap(i, r.below(i as u32 + 1) as usize);
    }
    Board { points, picks: (0..16_384).map(|_| r.next()).collect() }
}

/// The first boards of one size and make.
fn boards(make: &str, n: usize, count: u32) -> impl Iterator<Item = Board> {
    (0..count).map(move |seed| board(make, n, 7919 * seed + n as u32))
}

/// The least time of several runs, in nanoseconds: what else the machine does only adds.
fn least_time(runs: usize, mut run: impl FnMut()) -> u128 {
    let timed = |run: &mut dyn FnMut()| {
        let start = Instant::now();
        run();
        start.elapsed().as_nanos()
    };
    (0..runs).map(|_| timed(&mut run)).min().unwrap()
}

#[derive(Default)]
struct Line {
    moves: usize,
    ours: u128,
    theirs: u128,
}

/// Boards of one size and make, through both; the answers must be equal.
fn measure(make: &str, n: usize) -> Line {
    let mut sum = Line::default();
    let (count, runs) = if n < 128 { (8, 9) } else { (4, 5) };
    for (seed, b) in boards(make, n, count).enumerate() {
        let [x, y] = b.columns();
        let mut lent = Buffers::new(n);
        let mut answer = Answer::Refused(0);
        let ours = least_time(runs, || answer = tour::two_opt_moves(n, black_box(&x), black_box(&y), &b.picks, &mut lent));
        let mut told = (0, 0, vec![]);
        let theirs = least_time(runs, || told = bare_moves(black_box(&b.points), &b.picks));
        assert_eq!(answer, Answer::Delivered { moves: told.0, cross: told.1 }, "{make} {n} {seed}");
        assert!(lent.ring.iter().map(|&k| k as usize).eq(told.2), "{make} {n} {seed}: another ring");
        sum.moves += told.0;
        sum.ours += ours;
        sum.theirs += theirs;
    }
    sum.moves /= count as usize;
    sum.ours /= count as u128;
    sum.theirs /= count as u128;
    sum
}

/// The edge that starts at a position of a ring, its smaller point first.
fn edge(ring: &[u16], i: usize) -> [u16; 2] {
    let [p, q] = [ring[i], ring[(i + 1) % ring.len()]];
    [p.min(q), p.max(q)]
}

/// The two edges of a record are on one line: the move for it is a hoist, which puts in three edges. An uncrossing puts in two.
fn is_hoist(points: &[[i32; 2]], record: [u16; 4]) -> bool {
    let [a, b, c, d] = record.map(|k| points[k as usize].map(i64::from));
    [c, d].iter().all(|p| (b[0] - a[0]) * (p[1] - a[1]) == (b[1] - a[1]) * (p[0] - a[0]))
}

/// The positions of the edges that a move put in: those that are new on the ring, and, where a hoist put one back that it had taken away, the one
/// between them.
fn put_in(before: &[u16], after: &[u16], is_hoist: bool) -> Vec<usize> {
    let n = after.len();
    let old: Vec<[u16; 2]> = (0..n).map(|i| edge(before, i)).collect();
    let mut positions: Vec<usize> = (0..n).filter(|&i| !old.contains(&edge(after, i))).collect();
    if let (true, &[i, j]) = (is_hoist, &positions[..]) {
        positions.push(if j == i + 2 { i + 1 } else { (j + 1) % n });
    }
    assert_eq!(positions.len(), 2 + usize::from(is_hoist));
    positions
}

/// The pair tests of a run: those made, and those of the plain scan, in which a search compares an edge with all others. Searched for are each edge
/// of the ring at the start, and in each move those that it puts in.
fn pair_tests(b: &Board) -> [usize; 2] {
    let n = b.points.len();
    let [x, y] = b.columns();
    let (mut lent, mut found) = (Buffers::new(n), vec![0; n]);
    let mut last: Option<(Vec<u16>, bool)> = None;
    let [mut made, mut plain] = [0, 0];
    for moves in 0.. {
        let answer = tour::two_opt_moves(n, &x, &y, &b.picks[..moves], &mut lent);
        let searches = last.map_or_else(|| (0..n).collect(), |(ring, is_hoist)| put_in(&ring, &lent.ring, is_hoist));
        plain += searches.len() * (n - 1);
        for i in searches {
            made += tour::query(n, &x, &y, &lent.ring, &mut lent.tree, i, &mut found).unwrap().tested;
        }
        let Answer::Stopped { left, .. } = answer else { break };
        let record = lent.records(left).nth(b.picks[moves] as usize % left).unwrap();
        last = Some((lent.ring.clone(), is_hoist(&b.points, record)));
    }
    [made, plain]
}

/// The same of several boards, in the mean.
fn mean_pair_tests(make: &str, n: usize) -> [usize; 2] {
    let count = if n < 128 { 8 } else if n < 256 { 4 } else { 1 };
    let [made, plain] = boards(make, n, count).map(|b| pair_tests(&b)).fold([0, 0], |sum, of| [sum[0] + of[0], sum[1] + of[1]]);
    [made, plain].map(|tests| tests / count as usize)
}

/// The feed of a ring of n points, compared with the standard library's roots: the time of a call, and of one that is refused only at the
/// ring's last entry, so that the difference is the feed's own.
fn measure_feed(n: usize) -> [u128; 2] {
    let b = board("uniform", n, 1);
    let [x, y] = b.columns();
    let ring: Vec<u16> = (0..n as u16).collect();
    let mut named_twice = ring.clone();
    named_twice[n - 1] = ring[n - 2];
    let gap = |a: i32, b: i32| (a as i64 - b as i64).unsigned_abs();
    let roots = (0..n).map(|i| (i, (i + 1) % n)).map(|(i, j)| (gap(x[i], x[j]).pow(2) + gap(y[i], y[j]).pow(2)).isqrt());
    let expected = [Ok(roots.sum()), Err(4)];
    assert_eq!([&ring, &named_twice].map(|r| tour::feed(n, &x, &y, r)), expected);
    [ring, named_twice].map(|r| least_time(999, || _ = black_box(tour::feed(n, black_box(&x), black_box(&y), &r))))
}

/// The time of check 4 of n points, which reads the whole ring.
fn measure_ring(n: usize) -> u128 {
    let ring: Vec<u16> = (0..n as u16).rev().collect();
    assert_eq!(tour::ring_fault(n, &ring), Ok(None));
    least_time(999, || _ = black_box(tour::ring_fault(n, black_box(&ring))))
}

/// The check of a delivered loop of n points, by the library and by the original's `Polygon::validate`, whose polygon is built before. Both compare all
/// n*(n-1)/2 pairs of edges: which search the original calls is not published, and the sweep that is takes big fractions only, so it has the oracle's plain one.
fn measure_validate(n: usize) -> [u128; 2] {
    let b = board("uniform", n, 1);
    let [x, y] = b.columns();
    let mut lent = Buffers::new(n);
    let answer = tour::two_opt_moves(n, &x, &y, &b.picks, &mut lent);
    assert!(matches!(answer, Answer::Delivered { .. }));
    let order: Vec<usize> = lent.ring.iter().map(|&k| k as usize).collect();
    let polygon = with_ring(points(&b.points), &order);
    assert_eq!((tour::validate(n, &x, &y, &lent.ring), polygon.validate()), (Ok(()), Ok(())));
    let ours = least_time(999, || _ = black_box(tour::validate(n, black_box(&x), black_box(&y), &lent.ring)));
    [ours, least_time(999, || _ = black_box(black_box(&polygon).validate()))]
}

/// A run of n points that stands still: after half of its moves, or at its start.
struct Still {
    points: [Vec<i32>; 2],
    left: usize,
    lent: Buffers,
}

fn still(make: &str, n: usize, is_half_way: bool) -> Still {
    let b = board(make, n, 1);
    let [x, y] = b.columns();
    let mut lent = Buffers::new(n);
    let Answer::Delivered { moves, .. } = tour::two_opt_moves(n, &x, &y, &b.picks, &mut lent) else { panic!("{make}: no loop") };
    let made = if is_half_way { moves / 2 } else { 0 };
    let Answer::Stopped { left, .. } = tour::two_opt_moves(n, &x, &y, &b.picks[..made], &mut lent) else { panic!("{make}: not stopped") };
    Still { points: [x, y], left, lent }
}

/// How many records it has, and the time of saving it, and of taking it up with no picks. What is taken up has to give the same image again.
fn measure_image(s: &Still) -> (usize, [u128; 2]) {
    let ([x, y], n, left) = (&s.points, s.points[0].len(), s.left);
    let [mut image, mut again] = [0, 1].map(|k| vec![k; tour::image_length(n, left)]);
    let save = least_time(99, || assert_eq!(tour::save(n, black_box(x), black_box(y), left, &s.lent, &mut image), Ok(again.len())));
    let (mut other_x, mut other_y, mut other) = (vec![0; n], vec![0; n], Buffers::new(n));
    let taken_up = Answer::Stopped { moves: 0, left };
    let take_up = least_time(99, || assert_eq!(tour::take_up(black_box(&image), &[], &mut other_x, &mut other_y, &mut other), taken_up));
    assert_eq!(tour::save(n, &other_x, &other_y, left, &other, &mut again), Ok(image.len()));
    assert_eq!(image, again);
    (left, [save, take_up])
}

const DEPTH: usize = 1 << 20;
const OWN: usize = 512;
const PAINT: u8 = 0xa5;

/// The stack that a call of the library uses, its wrapper's with it: the part below this frame is painted before the call, and looked at after it.
#[inline(never)]
fn stack_of_call(call: impl FnOnce()) -> usize {
    let mut here = 0u8;
    let top = black_box(&raw mut here);
    for depth in OWN..DEPTH {
        // SAFETY: inside the stack of this thread, which has more than DEPTH left; below this frame, where nothing lives.
        unsafe { top.sub(depth).write_volatile(PAINT) };
    }
    call();
    let untouched = |depth: &usize| unsafe { top.sub(*depth).read_volatile() } == PAINT;
    DEPTH - (OWN..DEPTH).rev().take_while(untouched).count()
}

/// A thread with room to paint.
fn with_room(measure: impl FnOnce() -> usize + Send + 'static) -> usize {
    std::thread::Builder::new().stack_size(8 * DEPTH).spawn(measure).unwrap().join().unwrap()
}

/// The stack of an entry, on the deepest of several boards.
fn stack_used(n: usize) -> usize {
    let used = move |make, seed| {
        let b = board(make, n, seed);
        let ([x, y], mut lent) = (b.columns(), Buffers::new(n));
        stack_of_call(|| _ = black_box(tour::two_opt_moves(n, &x, &y, &b.picks, &mut lent)))
    };
    with_room(move || MAKES.iter().flat_map(|make| (0..4).map(move |seed| used(make, seed))).max().unwrap())
}

/// The stack of saving a run of n points, and of taking it up and going on to its loop.
fn stack_of_image(make: &'static str, n: usize, is_half_way: bool) -> [usize; 2] {
    let image = move || {
        let s = still(make, n, is_half_way);
        let mut image = vec![0; tour::image_length(n, s.left)];
        let save = stack_of_call(|| _ = black_box(tour::save(n, &s.points[0], &s.points[1], s.left, &s.lent, &mut image)));
        (save, image)
    };
    let take_up = move || {
        let (image, picks) = (image().1, board(make, n, 1).picks);
        let (mut x, mut y, mut lent) = (vec![0; n], vec![0; n], Buffers::new(n));
        stack_of_call(|| _ = black_box(tour::take_up(&image, &picks, &mut x, &mut y, &mut lent)))
    };
    [with_room(move || image().0), with_room(take_up)]
}

fn main() {
    println!("board      n   moves   original us    proved us   ratio");
    let mut lines = Vec::new();
    for make in MAKES {
        for n in SIZES {
            let l = measure(make, n);
            let us = |t: u128| t as f64 / 1e3;
            println!("{make:8} {n:3} {:7} {:13.1} {:12.1} {:6.2}x", l.moves, us(l.theirs), us(l.ours), l.theirs as f64 / l.ours as f64);
            lines.push((make, n, l));
        }
    }
    println!("answers and rings were equal on every board");
    println!("\ngrowth from n to 2n: original, proved");
    for (make, n, l) in &lines {
        if let Some((.., twice)) = lines.iter().find(|(m, k, _)| m == make && *k == 2 * n) {
            let grown = |a: u128, b: u128| b as f64 / a as f64;
            println!("{make:8} {n:3} to {:3} {:6.1} {:6.1}", 2 * n, grown(l.theirs, twice.theirs), grown(l.ours, twice.ours));
        }
    }
    println!("\npair tests: made, plain scan, share");
    for make in MAKES {
        for n in SIZES {
            let [made, plain] = mean_pair_tests(make, n);
            println!("{make:8} {n:3} {made:9} {plain:9} {:6.1} %", 100.0 * made as f64 / plain as f64);
        }
    }
    let [fed, refused] = measure_feed(256).map(|t| t as f64 / 1e3);
    println!("\nfeed of 256 points: {fed:.1} us, its checks {refused:.1} us, the roots and their sum {:.1} us", fed - refused);
    println!("\ncheck 4 of 256 points: {:.2} us", measure_ring(256) as f64 / 1e3);
    let [ours, theirs] = measure_validate(256).map(|t| t as f64 / 1e3);
    println!("\nvalidate of 256 points: {ours:.1} us, the original {theirs:.1} us");
    let stills = [still("uniform", 256, true), still("row", 256, false)];
    let [uniform, row] = stills.map(|s| measure_image(&s)).map(|(left, times)| (left, times.map(|t| t as f64 / 1e3)));
    println!("\nof 256 points: a uniform board half way, {} records, and a row at its start, {} records; the original has no counterpart", uniform.0, row.0);
    for (k, call) in ["save", "take_up with no picks"].iter().enumerate() {
        println!("{call}: {:.1} us, {:.1} us", uniform.1[k], row.1[k]);
    }
    println!("\nmemory of a call in bytes: lent (x, y, ring, index, eight buffers of n*(n-1), tree), picks aside; stack");
    for n in [48, 256] {
        println!("n {n:3}: lent {:8} stack {:6}", n * 12 + 30 * n * (n - 1) + 16 * (2 * n - 1), stack_used(n));
    }
    let stacks = MAKES.map(|make| stack_of_image(make, 256, make == "uniform"));
    let [save, take_up] = [0, 1].map(|k| stacks.map(|s| s[k]).into_iter().max().unwrap());
    println!("n 256: stack of save {save:6}, of take_up {take_up:6}");
}
