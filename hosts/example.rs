//! A Rust host: the same calls as example.c, through the safe wrapper, with the same output. scripts/hosts.sh runs it.
mod tour;

use tour::{Answer, Buffers, Contact, End, Queried, Rejected};

/// The position of the edge that most records name; of several, the first.
fn worst(n: usize, lent: &Buffers) -> usize {
    let counts: Vec<u16> = lent.tangles(n).map(|(_, count)| count).collect();
    (0..n).reduce(|at, i| if counts[i] > counts[at] { i } else { at }).unwrap_or(0)
}

/// The answer, and for a loop or a state the ring, the records left, and the worst edge.
fn show(title: &str, n: usize, answer: Answer, lent: &Buffers) {
    let (code, moves, cross, left) = match answer {
        Answer::Delivered { moves, cross } => (0, moves, cross, 0),
        Answer::Stopped { moves, left } => (8, moves, 0, left),
        Answer::Refused(code) => (code, 0, 0, 0),
    };
    println!("{title}: code {code} moves {moves} cross {cross} left {left}");
    if code != 0 && code != 8 {
        return;
    }
    println!("  ring {}", lent.ring[..n].iter().map(u16::to_string).collect::<Vec<_>>().join(" "));
    for [a, b, c, d] in lent.records(left) {
        println!("  record {a}-{b} {c}-{d}");
    }
    if let (8, Some(([a, b], count))) = (code, lent.tangles(n).nth(worst(n, lent))) {
        println!("  worst edge {a}-{b}, named {count} times");
    }
}

/// The box of the k positions from i on, and behind it those of its halves.
fn show_tree(i: usize, k: usize, boxes: &[[i32; 4]]) {
    let [left, low, right, high] = boxes[0];
    println!("  box of {i} to {}: {left} {low}, {right} {high}", i + k - 1);
    if k > 1 {
        show_tree(i, k / 2, &boxes[1..]);
        show_tree(i + k / 2, k - k / 2, &boxes[2 * (k / 2)..]);
    }
}

/// How many edges of a ring were compared with the one that starts at a position, and which of them meet it.
fn show_query(title: &str, n: usize, x: &[i32], y: &[i32], ring: &[u16], tree: &mut [i32], position: usize) {
    let mut found = [0; 8];
    match tour::query(n, x, y, ring, tree, position, &mut found) {
        Ok(Queried { found, tested }) => {
            let ends = |&i: &u16| [ring[i as usize], ring[(i as usize + 1) % n]];
            let met: Vec<String> = found.iter().map(ends).map(|[p, q]| format!(" {}-{}", p.min(q), p.max(q))).collect();
            println!("{title}: {tested} compared, meets{}", met.concat());
        }
        Err(code) => println!("{title}: code {code}"),
    }
}

/// The records left, the one made first at the front.
fn show_by_age(left: usize, lent: &Buffers) {
    let mut by_age: Vec<(u32, [u16; 4])> = lent.ages(left).zip(lent.records(left)).collect();
    by_age.sort();
    for (age, [a, b, c, d]) in by_age {
        println!("  age {age} {a}-{b} {c}-{d}");
    }
}

/// A refusal with its words.
fn show_refused(title: &str, answer: Answer) {
    let Answer::Refused(code) = answer else { panic!("not refused") };
    println!("{title}: code {code}, {}", tour::words(code));
}

/// The image goes to a file, and comes back from it.
fn through_a_file(image: &[u8]) -> std::io::Result<Vec<u8>> {
    let path = std::env::temp_dir().join(format!("tour-{}.image", std::process::id()));
    std::fs::write(&path, image)?;
    let read = std::fs::read(&path);
    std::fs::remove_file(&path)?;
    read
}

/// A run that is not stopped; one that is stopped before the pick `stop`, saved and taken up in other buffers, where it goes on with the other picks; and
/// images that are refused.
fn stop_and_go_on(x: &[i32], y: &[i32], picks: &[u32], stop: usize) {
    let n = x.len();
    let mut whole = Buffers::new(n);
    let a = tour::two_opt_moves(n, x, y, picks, &mut whole);
    show("not stopped", n, a, &whole);
    let Answer::Delivered { moves: all, .. } = a else { panic!("no loop") };

    let mut lent = Buffers::new(n);
    let a = tour::two_opt_moves(n, x, y, &picks[..stop], &mut lent);
    show("stopped", n, a, &lent);
    let Answer::Stopped { moves: before, left } = a else { panic!("not stopped") };
    let mut image = vec![0; tour::image_length(n, left)];
    let length = tour::save(n, x, y, left, &lent, &mut image).expect("a state that a run left");
    println!("saved: code 0 length {length}");
    let mut image = through_a_file(&image).expect("a file");

    let (mut other_x, mut other_y, mut other) = (vec![0; n], vec![0; n], Buffers::new(n));
    let a = tour::take_up(&image, &picks[stop..], &mut other_x, &mut other_y, &mut other);
    show("taken up", n, a, &other);
    let Answer::Delivered { moves: after, .. } = a else { panic!("no loop") };
    let is_same = |same| if same { "the same" } else { "another" };
    println!("  {} loop, {before} moves and {after}, not stopped {all}", is_same(other.ring == whole.ring));
    let a = tour::take_up(&image, &[], &mut other_x, &mut other_y, &mut other);
    show("taken up, no picks", n, a, &other);
    println!("  {} points", is_same(x == other_x && y == other_y));
    show_by_age(left, &other);

    show_refused("image cut off", tour::take_up(&image[..length - 1], &[], &mut other_x, &mut other_y, &mut other));
    image[length - 4] ^= 1; // in the last record's age
    show_refused("image, a byte changed", tour::take_up(&image, &[], &mut other_x, &mut other_y, &mut other));
}

fn code<T>(answer: Result<T, u32>) -> u32 {
    answer.err().unwrap_or(0)
}

fn show_contact(title: &str, contact: Result<Option<Contact>, u32>) {
    let end = |e: End| format!("{} {}{}", e.at[0], e.at[1], if e.is_open { " open" } else { "" });
    match contact {
        Ok(None) => println!("{title}: none"),
        Ok(Some(Contact::Crossing)) => println!("{title}: crossing"),
        Ok(Some(Contact::Overlap(start, stop))) => println!("{title}: overlap from {} to {}", end(start), end(stop)),
        Err(code) => println!("{title}: code {code}"),
    }
}

/// Whether a ring passes, and of two edges that meet how they do.
fn show_check(title: &str, n: usize, x: &[i32], y: &[i32], ring: &[u16]) {
    let (code, first, second) = match tour::validate(n, x, y, ring) {
        Ok(()) => (0, 0, 0),
        Err(Rejected::Meeting { first, second }) => (15, first, second),
        Err(Rejected::Refused(code)) => (code, 0, 0),
    };
    println!("{title}: code {code} first {first} second {second}");
    if code == 15 {
        let edge = |i: usize| [i, (i + 1) % n].map(|i| ring[i] as usize).map(|p| [x[p], y[p]]);
        show_contact("  how they meet", tour::contact(edge(first), edge(second)));
    }
}

fn main() {
    // the job of four points in micrometres and one pick
    let words: [u32; 14] = [4, 20, 1, 52, 56, 0, 0, 100, 100, 100, 0, 0, 100, 7];
    let mut job: Vec<u8> = words.iter().flat_map(|w| w.to_le_bytes()).collect();
    let (mut x, mut y, mut all_picks) = ([0i32; 8], [0i32; 8], [0u32; 4091]);
    let (n, used) = tour::read_job(&job, &mut x, &mut y, &mut all_picks).expect("a good job");
    println!("job: code 0 points {n} picks {used}");
    println!("job cut off: code {}", code(tour::read_job(&job[..job.len() - 1], &mut x, &mut y, &mut all_picks)));
    println!("job, short buffer: code {}", code(tour::read_job(&job, &mut x[..3], &mut y, &mut all_picks)));
    job[12] = 48; // the pick area starts at byte 48, in the last point
    println!("job, pick over the last point: code {}", code(tour::read_job(&job, &mut x[..3], &mut y, &mut all_picks)));

    let picks = &all_picks[..used];
    let mut lent = Buffers::new(8);
    lent.ring.push(4711);
    lent.tree.push(4711);
    let a = tour::two_opt_moves(n, &x, &y, picks, &mut lent);
    show("loop", n, a, &lent);
    let a = tour::two_opt_moves(n, &x, &y, &[], &mut lent);
    show("no picks", n, a, &lent);
    lent.ring[..4].copy_from_slice(&[0, 2, 1, 3]);
    let a = tour::resolve_self_intersections(n, &x, &y, picks, &mut lent);
    show("lent ring", n, a, &lent);
    lent.ring[..4].copy_from_slice(&[0, 2, 2, 3]);
    let a = tour::resolve_self_intersections(n, &x, &y, picks, &mut lent);
    show("no ring", n, a, &lent);
    let mut short = Buffers::new(3);
    let a = tour::two_opt_moves(n, &x, &y, picks, &mut short);
    show("short buffers", n, a, &short);
    let a = tour::two_opt_moves(257, &x, &y, picks, &mut lent);
    show("too many points", 257, a, &lent);
    x[1] = 1_000_000_001;
    let a = tour::two_opt_moves(n, &x, &y, picks, &mut lent);
    show("too far", n, a, &lent);
    (x[1], y[1]) = (x[0], y[0]);
    let a = tour::two_opt_moves(n, &x, &y, picks, &mut lent);
    show("equal points", n, a, &lent);
    let a = tour::two_opt_moves(2, &[0, 1], &[0, 0], picks, &mut lent);
    show("two points", 2, a, &lent);
    let a = tour::two_opt_moves(3, &[0, 1, 2], &[0, 1, 2], picks, &mut lent);
    show("one line", 3, a, &lent);
    let row = ([12, 1, 3, 0, 10, 2, 6], [0, 0, -5, 0, 0, 0, 5]);
    let a = tour::two_opt_moves(7, &row.0, &row.1, &[0], &mut lent);
    show("a row, one pick", 7, a, &lent);
    let meeting: Vec<String> = lent.meeting(7, [1, 4]).map(|[a, b]| format!(" {a}-{b}")).collect();
    println!("  1-4 meets{}", meeting.concat());
    let at = worst(7, &lent);
    show_query("  worst edge", 7, &row.0, &row.1, &lent.ring, &mut lent.tree, at);
    show_query("  first edge", 7, &row.0, &row.1, &lent.ring, &mut lent.tree, 0);
    let five = ([2, 0, 2, 0, 2], [3, 2, 2, 4, 0]);
    let a = tour::two_opt_moves(5, &five.0, &five.1, &[0], &mut lent);
    show("five points, one pick", 5, a, &lent);
    let Answer::Stopped { left, .. } = a else { panic!("a loop") };
    show_by_age(left, &lent);
    show_tree(0, 5, tour::boxes(&lent.tree));
    let at = worst(5, &lent);
    show_query("  worst edge", 5, &five.0, &five.1, &lent.ring, &mut lent.tree, at);
    stop_and_go_on(&[0, 4, 2, 5, 1, 3, 2, 5], &[3, 1, 3, 1, 1, 3, 0, 3], &[0, 1, 2, 3, 4, 5, 6, 7, 8, 9], 6);
    let many = vec![0; 1_000_001];
    let a = tour::two_opt_moves(7, &row.0, &row.1, &many[1..], &mut lent);
    show("1000000 picks", 7, a, &lent);
    let a = tour::two_opt_moves(7, &row.0, &row.1, &many, &mut lent);
    show("1000001 picks", 7, a, &lent);
    let a = tour::two_opt_moves(7, &[1_000_000_001, 0, 0, 0, 0, 0, 0], &row.1, &many, &mut lent);
    show("1000001 picks, too far", 7, a, &lent);
    let mut short = Buffers::new(6);
    short.ring.push(0);
    short.index.push(0);
    let a = tour::two_opt_moves(7, &row.0, &row.1, &many, &mut short);
    show("1000001 picks, short buffers", 7, a, &short);
    println!("past the ring: {}, past the tree: {}", lent.ring[8], lent.tree[60]);

    for (title, n, ring) in [
        ("ring", 4, [0, 2, 1, 3]),
        ("ring, a point named again", 4, [0, 2, 2, 3]),
        ("ring, no point's number", 4, [0, 4, 1, 3]),
        ("ring, too many points", 257, [0, 2, 1, 3]),
        ("ring, short buffer", 5, [0, 2, 1, 3]),
    ] {
        let (code, position) = match tour::ring_fault(n, &ring) {
            Ok(None) => (0, 0),
            Ok(Some(position)) => (4, position),
            Err(code) => (code, 0),
        };
        println!("{title}: code {code} position {position}");
    }

    let (wide, too_wide, y) = ([0, 3, 3, 0], [0, 3, 3, 1_000_000_001], [0, 0, 4, 4]);
    for (title, n, x, ring) in [
        ("feed around", 4, &wide[..], [0, 1, 2, 3]),
        ("feed across", 4, &wide, [0, 2, 1, 3]),
        ("feed, too many points", 257, &wide, [0, 1, 2, 3]),
        ("feed, short buffer", 4, &wide[..3], [0, 1, 2, 3]),
        ("feed, too far", 4, &too_wide, [0, 1, 2, 3]),
        ("feed, no ring", 4, &wide, [0, 2, 2, 3]),
    ] {
        let fed = tour::feed(n, x, &y, &ring);
        println!("{title}: code {} feed {}", code(fed), fed.unwrap_or(0));
    }

    let (around, across, twice) = ([0, 1, 2, 3], [0, 2, 1, 3], [0, 2, 2, 3]);
    for (title, n, x, y, ring, room, position) in [
        ("query around", 4, &wide, &y, &around, 60, 0),
        ("query across", 4, &wide, &y, &across, 60, 0),
        ("query, too many points", 257, &wide, &y, &across, 60, 0),
        ("query, short tree", 4, &wide, &y, &across, 27, 0),
        ("query, no such position", 4, &wide, &y, &across, 60, 4),
        ("query, too far", 4, &too_wide, &y, &across, 60, 0),
        ("query, no ring", 4, &wide, &y, &twice, 60, 0),
        ("query, equal points", 4, &y, &y, &across, 60, 0),
        ("query, two points", 2, &wide, &y, &around, 60, 0),
        ("query, one line", 4, &[12, 1, 3, 0], &[12, 1, 3, 0], &across, 60, 0),
    ] {
        show_query(title, n, x, y, ring, &mut lent.tree[..room], position);
    }

    for (title, n, x, y, ring) in [
        ("drawn around", 4, &wide[..], &y[..], &around),
        ("drawn clockwise", 4, &wide, &y, &[3, 2, 1, 0]),
        ("drawn across", 4, &wide, &y, &across),
        ("drawn with a fold", 4, &[0, 4, 2, 2], &[0, 0, 0, 3], &around),
        ("drawn, too many points", 257, &wide, &y, &around),
        ("drawn, short buffer", 4, &wide, &y[..3], &around),
        ("drawn, too far", 4, &too_wide, &y, &around),
        ("drawn, no ring", 4, &wide, &y, &twice),
        ("drawn, equal points", 4, &y, &y, &around),
        ("drawn, two points", 2, &wide, &y, &around),
        ("drawn, one line", 4, &row.0, &row.0, &around),
    ] {
        show_check(title, n, x, y, ring);
    }

    for (title, a, b) in [
        ("a touch", [[0, 0], [4, 0]], [[2, 0], [2, 3]]),
        ("a fold", [[0, 0], [4, 0]], [[4, 0], [2, 0]]),
        ("one after the other", [[0, 0], [2, 0]], [[2, 0], [4, 0]]),
        ("no segment", [[0, 0], [0, 0]], [[1, 0], [2, 0]]),
    ] {
        show_contact(title, tour::contact(a, b));
    }

    let met = [
        tour::meets([[0, 0], [4, 0]], [[2, 0], [2, 3]]),
        tour::meets([[0, 0], [4, 0]], [[4, 0], [2, 0]]),
        tour::meets([[0, 0], [2, 0]], [[2, 0], [4, 0]]),
        tour::meets([[0, 0], [0, 0]], [[1, 0], [2, 0]]),
    ];
    println!("meets: {}", met.map(|m| m.map_or_else(|code| code, u32::from).to_string()).join(" "));
    for code in (0..256).filter(|&code| !tour::words(code).is_empty()) {
        println!("refusal {code}: {}", tour::words(code));
    }
}
