//! The proved two-opt polygonization for Rust hosts: a safe wrapper of libhost.a (scripts/hosts.sh builds it).
//! tour.h says what each buffer needs. A safe reference is good for its length and shares nothing with another `&mut`, which is all that
//! the library cannot check for itself; so nothing here can be called wrongly.

mod raw {
    #[repr(C)]
    pub struct Answer {
        pub code: u32,
        pub moves: usize,
        pub cross: usize,
        pub left: usize,
    }

    #[repr(C)]
    pub struct Saved {
        pub code: u32,
        pub length: usize,
    }

    #[repr(C)]
    pub struct Fault {
        pub code: u32,
        pub position: usize,
    }

    #[repr(C)]
    pub struct Fed {
        pub code: u32,
        pub feed: u64,
    }

    #[repr(C)]
    pub struct Queried {
        pub code: u32,
        pub count: usize,
        pub tested: usize,
    }

    #[repr(C)]
    pub struct Checked {
        pub code: u32,
        pub first: usize,
        pub second: usize,
    }

    #[repr(C)]
    pub struct End {
        pub x: i32,
        pub y: i32,
        pub is_open: u32,
    }

    #[repr(C)]
    pub struct Kind {
        pub code: u32,
        pub kind: u32,
        pub start: End,
        pub stop: End,
    }

    #[repr(C)]
    pub struct Job {
        pub code: u32,
        pub points: usize,
        pub picks: usize,
    }

    // Each is given what stands in its brackets, and then lent the buffers.
    macro_rules! entries {
        ($($entry:ident($($given:ident: $of:ty),*)),*) => {
            #[link(name = "host", kind = "static")]
            unsafe extern "C" {
                $(pub fn $entry($($given: $of,)* ring: *mut u16, ring_len: usize, index: *mut u16, index_len: usize, heads: *mut u16, heads_len: usize,
                    ends: *mut u64, ends_len: usize, links: *mut u64, links_len: usize, ages: *mut u32, ages_len: usize,
                    dense: *mut u16, dense_len: usize, reverse: *mut u16, reverse_len: usize, free: *mut u16, free_len: usize,
                    tangles: *mut u16, tangles_len: usize, tree: *mut i32, tree_len: usize) -> Answer;)*
                pub fn tour_save(n: usize, x: *const i32, x_len: usize, y: *const i32, y_len: usize, ring: *const u16, ring_len: usize, left: usize,
                    dense: *const u16, dense_len: usize, ends: *const u64, ends_len: usize, ages: *const u32, ages_len: usize,
                    out: *mut u8, out_len: usize) -> Saved;
                pub fn tour_ring_fault(n: usize, ring: *const u16, ring_len: usize) -> Fault;
                pub fn tour_feed(n: usize, x: *const i32, x_len: usize, y: *const i32, y_len: usize, ring: *const u16, ring_len: usize) -> Fed;
                pub fn tour_query(n: usize, x: *const i32, x_len: usize, y: *const i32, y_len: usize, ring: *const u16, ring_len: usize,
                    tree: *mut i32, tree_len: usize, position: usize, found: *mut u16, found_len: usize) -> Queried;
                pub fn tour_validate(n: usize, x: *const i32, x_len: usize, y: *const i32, y_len: usize, ring: *const u16, ring_len: usize) -> Checked;
                pub safe fn tour_contact(a1x: i32, a1y: i32, a2x: i32, a2y: i32, b1x: i32, b1y: i32, b2x: i32, b2y: i32) -> Kind;
                pub safe fn tour_meets(a1x: i32, a1y: i32, a2x: i32, a2y: i32, b1x: i32, b1y: i32, b2x: i32, b2y: i32) -> u32;
                pub fn tour_read_job(job: *const u8, job_len: usize, x: *mut i32, x_len: usize, y: *mut i32, y_len: usize,
                    picks: *mut u32, picks_len: usize) -> Job;
            }
        };
    }
    entries!(
        tour_two_opt_moves(n: usize, x: *const i32, x_len: usize, y: *const i32, y_len: usize, picks: *const u32, picks_len: usize),
        tour_resolve_self_intersections(n: usize, x: *const i32, x_len: usize, y: *const i32, y_len: usize, picks: *const u32, picks_len: usize),
        tour_take_up(image: *const u8, image_len: usize, picks: *const u32, picks_len: usize, x: *mut i32, x_len: usize, y: *mut i32, y_len: usize)
    );
}

/// What an entry answers.
#[derive(Clone, Copy, Debug, PartialEq, Eq)]
pub enum Answer {
    /// The ring is a loop: moves made, and pairs of edges that met at the start.
    Delivered { moves: usize, cross: usize },
    /// The picks are used up: moves made, and records left.
    Stopped { moves: usize, left: usize },
    /// The number of the refusal; every buffer is as it was.
    Refused(u32),
}

/// A refusal in words, for people; empty for a number that is none.
pub fn words(code: u32) -> &'static str {
    match code {
        1 => "more than 256 points",
        2 => "a lent buffer has too few entries",
        3 => "a coordinate is beyond the limits, or a segment has no length",
        4 => "the ring does not name each point once",
        5 => "two points are equal",
        6 => "fewer than three points",
        7 => "all points lie on one line",
        8 => "the picks are used up, and edges still meet",
        9 => "the job has fewer than 20 bytes or more than 16384",
        10 => "the total in the job's header is not its length",
        11 => "the job has more than 48 points",
        12 => "an area of the job is not within it",
        13 => "the areas of the job share bytes",
        14 => "the least point does not turn counter-clockwise",
        15 => "two edges meet",
        19 => "more than 1000000 picks",
        20 => "the image has a wrong length, record width or area",
        21 => "the records or their ages are not those of the ring",
        _ => "",
    }
}

/// The ring and the work buffers that a call is lent.
pub struct Buffers {
    pub ring: Vec<u16>,
    pub index: Vec<u16>,
    ends: Vec<u64>,
    links: Vec<u64>,
    ages: Vec<u32>,
    heads: Vec<u16>,
    dense: Vec<u16>,
    reverse: Vec<u16>,
    free: Vec<u16>,
    tangles: Vec<u16>,
    pub tree: Vec<i32>,
}

impl Buffers {
    /// Buffers that n points need.
    pub fn new(n: usize) -> Buffers {
        let pairs = n * n.saturating_sub(1);
        let [heads, dense, reverse, free, tangles] = std::array::from_fn(|_| vec![0; pairs]);
        let [ends, links] = std::array::from_fn(|_| vec![0; pairs]);
        let tree = vec![0; 4 * (2 * n).saturating_sub(1)];
        Buffers { ring: vec![0; n], index: vec![0; n], ends, links, ages: vec![0; pairs], heads, dense, reverse, free, tangles, tree }
    }

    /// The edges of the first records in dense order; after `Stopped { left, .. }` the first `left` are those left.
    pub fn records(&self, left: usize) -> impl Iterator<Item = [u16; 4]> + '_ {
        self.dense.iter().take(left).map(|&s| parts(self.ends[s as usize]))
    }

    /// The ages of these records, in the same order: how many records were made before each in the run.
    pub fn ages(&self, left: usize) -> impl Iterator<Item = u32> + '_ {
        self.dense.iter().take(left).map(|&s| self.ages[s as usize])
    }

    /// After `Stopped` of n points: the edges of the ring, in ring order, each with its smaller point first and with how many records left name it.
    pub fn tangles(&self, n: usize) -> impl Iterator<Item = ([u16; 2], u16)> + '_ {
        (0..n).map(move |i| {
            let (p, q) = (self.ring[i], self.ring[(i + 1) % n]);
            let [a, b] = [p.min(q), p.max(q)];
            ([a, b], self.tangles[b as usize + n * a as usize])
        })
    }

    /// After `Stopped` of n points: the edges that meet the edge of a and b, a < b, by the records left, newest first.
    pub fn meeting(&self, n: usize, [a, b]: [u16; 2]) -> impl Iterator<Item = [u16; 2]> + '_ {
        let mut slot = self.heads[b as usize + n * a as usize];
        std::iter::from_fn(move || {
            let [min0, max0, min1, max1] = parts(*self.ends.get(slot as usize)?);
            let [next0, _, next1, _] = parts(self.links[slot as usize]);
            let (other, next) = if [min0, max0] == [a, b] { ([min1, max1], next0) } else { ([min0, max0], next1) };
            slot = next;
            Some(other)
        })
    }
}

/// The boxes of a tree, in the order that tour.h tells, each of least x, least y, greatest x, greatest y.
pub fn boxes(tree: &[i32]) -> &[[i32; 4]] {
    tree.as_chunks().0
}

/// The four parts of a record's word, the lowest first.
fn parts(word: u64) -> [u16; 4] {
    std::array::from_fn(|k| (word >> (16 * k)) as u16)
}

macro_rules! call {
    ($entry:ident, $lent:expr, $($given:expr),*) => {{
        let Buffers { ring, index, ends, links, ages, heads, dense, reverse, free, tangles, tree } = $lent;
        // SAFETY: every pointer and length is of a live slice, and the borrow checker keeps the `&mut` ones apart.
        let answer = unsafe {
            raw::$entry($($given,)* ring.as_mut_ptr(), ring.len(), index.as_mut_ptr(), index.len(), heads.as_mut_ptr(), heads.len(),
                ends.as_mut_ptr(), ends.len(), links.as_mut_ptr(), links.len(), ages.as_mut_ptr(), ages.len(), dense.as_mut_ptr(), dense.len(),
                reverse.as_mut_ptr(), reverse.len(), free.as_mut_ptr(), free.len(), tangles.as_mut_ptr(), tangles.len(), tree.as_mut_ptr(), tree.len())
        };
        match answer.code {
            0 => Answer::Delivered { moves: answer.moves, cross: answer.cross },
            8 => Answer::Stopped { moves: answer.moves, left: answer.left },
            code => Answer::Refused(code),
        }
    }};
}

/// A loop through the first n points, starting in their own order.
pub fn two_opt_moves(n: usize, x: &[i32], y: &[i32], picks: &[u32], lent: &mut Buffers) -> Answer {
    call!(tour_two_opt_moves, lent, n, x.as_ptr(), x.len(), y.as_ptr(), y.len(), picks.as_ptr(), picks.len())
}

/// A loop through the first n points, starting from `lent.ring`.
pub fn resolve_self_intersections(n: usize, x: &[i32], y: &[i32], picks: &[u32], lent: &mut Buffers) -> Answer {
    call!(tour_resolve_self_intersections, lent, n, x.as_ptr(), x.len(), y.as_ptr(), y.len(), picks.as_ptr(), picks.len())
}

/// The bytes of the image of n points and so many records.
pub fn image_length(n: usize, records: usize) -> usize {
    28 + 10 * n + 12 * records
}

/// Saves a stopped run: writes its image, a file that tour.h describes, to the start of `out`, and answers its length. The run left ring and records in
/// `lent`, and told that `left` records are left. The error is the number of the refusal: 1 to 7, or 21; 2 also where `out` has fewer than
/// `image_length(n, left)` bytes.
pub fn save(n: usize, x: &[i32], y: &[i32], left: usize, lent: &Buffers, out: &mut [u8]) -> Result<usize, u32> {
    let Buffers { ring, dense, ends, ages, .. } = lent;
    // SAFETY: as above.
    let saved = unsafe {
        raw::tour_save(n, x.as_ptr(), x.len(), y.as_ptr(), y.len(), ring.as_ptr(), ring.len(), left, dense.as_ptr(), dense.len(),
            ends.as_ptr(), ends.len(), ages.as_ptr(), ages.len(), out.as_mut_ptr(), out.len())
    };
    if saved.code == 0 { Ok(saved.length) } else { Err(saved.code) }
}

/// Goes on with the picks from an image, whose first four bytes are the number of its points, the lowest first. What x, y and `lent` hold at first is not
/// read; the points, the ring and the records of the run are left there. Moves are counted from 0, and `cross` is how many records the image has.
pub fn take_up(image: &[u8], picks: &[u32], x: &mut [i32], y: &mut [i32], lent: &mut Buffers) -> Answer {
    call!(tour_take_up, lent, image.as_ptr(), image.len(), picks.as_ptr(), picks.len(), x.as_mut_ptr(), x.len(), y.as_mut_ptr(), y.len())
}

/// The position of the first entry of the ring's first n that is n or more or repeats an earlier one; `None` where each point is named once. The
/// error is the number of the refusal: 1 or 2.
pub fn ring_fault(n: usize, ring: &[u16]) -> Result<Option<usize>, u32> {
    // SAFETY: as above.
    let fault = unsafe { raw::tour_ring_fault(n, ring.as_ptr(), ring.len()) };
    match fault.code {
        0 => Ok(None),
        4 => Ok(Some(fault.position)),
        code => Err(code),
    }
}

/// The feed of the loop that the first n entries of the ring name; the error is the number of the refusal: 1 to 4.
pub fn feed(n: usize, x: &[i32], y: &[i32], ring: &[u16]) -> Result<u64, u32> {
    // SAFETY: as above.
    let fed = unsafe { raw::tour_feed(n, x.as_ptr(), x.len(), y.as_ptr(), y.len(), ring.as_ptr(), ring.len()) };
    if fed.code == 0 { Ok(fed.feed) } else { Err(fed.code) }
}

/// What a query finds.
#[derive(Clone, Copy, Debug, PartialEq, Eq)]
pub struct Queried<'a> {
    /// The positions where the edges start that meet the one asked for, in ascending order.
    pub found: &'a [u16],
    /// How many edges were compared with it: the others whose box shares a place with its box.
    pub tested: usize,
}

/// Which edges of the loop that the ring's first n entries name meet the edge that starts at a position, elsewhere than in an end of both. The
/// tree may hold anything at first, and is that of the ring afterwards. The error is the number of the refusal: 1 to 7, 2 also for a position of n
/// or more.
pub fn query<'a>(
    n: usize,
    x: &[i32],
    y: &[i32],
    ring: &[u16],
    tree: &mut [i32],
    position: usize,
    found: &'a mut [u16],
) -> Result<Queried<'a>, u32> {
    // SAFETY: as above.
    let queried = unsafe {
        raw::tour_query(n, x.as_ptr(), x.len(), y.as_ptr(), y.len(), ring.as_ptr(), ring.len(), tree.as_mut_ptr(), tree.len(), position,
            found.as_mut_ptr(), found.len())
    };
    if queried.code == 0 { Ok(Queried { found: &found[..queried.count], tested: queried.tested }) } else { Err(queried.code) }
}

/// Why a drawn ring does not pass.
#[derive(Clone, Copy, Debug, PartialEq, Eq)]
pub enum Rejected {
    /// Refusal 15. The edges that start at these positions meet, the first before the second; they are the first two that do.
    Meeting { first: usize, second: usize },
    /// The number of the refusal: 1 to 6, or 14.
    Refused(u32),
}

/// Whether the loop that the first n entries of the ring name may go to ink: whether a run from it with no picks would deliver it as it is.
pub fn validate(n: usize, x: &[i32], y: &[i32], ring: &[u16]) -> Result<(), Rejected> {
    // SAFETY: as above.
    let checked = unsafe { raw::tour_validate(n, x.as_ptr(), x.len(), y.as_ptr(), y.len(), ring.as_ptr(), ring.len()) };
    match checked.code {
        0 => Ok(()),
        15 => Err(Rejected::Meeting { first: checked.first, second: checked.second }),
        code => Err(Rejected::Refused(code)),
    }
}

/// An end of an overlap; an open one is an end of both segments.
#[derive(Clone, Copy, Debug, PartialEq, Eq)]
pub struct End {
    pub at: [i32; 2],
    pub is_open: bool,
}

/// How two segments meet elsewhere than in an end of both: in one place, or along a part, which goes from end to end in the order of x, then y.
#[derive(Clone, Copy, Debug, PartialEq, Eq)]
pub enum Contact {
    Crossing,
    Overlap(End, End),
}

/// How two segments meet, if they do; the error is the number of the refusal.
pub fn contact(a: [[i32; 2]; 2], b: [[i32; 2]; 2]) -> Result<Option<Contact>, u32> {
    let end = |e: raw::End| End { at: [e.x, e.y], is_open: e.is_open != 0 };
    let told = raw::tour_contact(a[0][0], a[0][1], a[1][0], a[1][1], b[0][0], b[0][1], b[1][0], b[1][1]);
    match (told.code, told.kind) {
        (0, 0) => Ok(None),
        (0, 1) => Ok(Some(Contact::Crossing)),
        (0, _) => Ok(Some(Contact::Overlap(end(told.start), end(told.stop)))),
        (code, _) => Err(code),
    }
}

/// Whether they do.
pub fn meets(a: [[i32; 2]; 2], b: [[i32; 2]; 2]) -> Result<bool, u32> {
    match raw::tour_meets(a[0][0], a[0][1], a[1][0], a[1][1], b[0][0], b[0][1], b[1][0], b[1][1]) {
        0 => Ok(false),
        1 => Ok(true),
        code => Err(code),
    }
}

/// Reads a job file, its points in steps of ten micrometres, an exact half away from zero; answers how many points and picks it has, or
/// the number of the refusal: 9 to 13, then 2.
pub fn read_job(job: &[u8], x: &mut [i32], y: &mut [i32], picks: &mut [u32]) -> Result<(usize, usize), u32> {
    // SAFETY: as above.
    let read = unsafe {
        raw::tour_read_job(job.as_ptr(), job.len(), x.as_mut_ptr(), x.len(), y.as_mut_ptr(), y.len(), picks.as_mut_ptr(), picks.len())
    };
    if read.code == 0 { Ok((read.points, read.picks)) } else { Err(read.code) }
}
