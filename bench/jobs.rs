//! Jobs to plan: trees of several shapes, films with an MPEG-like pattern, and
//! memories just large enough for a plan to exist.

#[derive(Clone, Copy, PartialEq, Eq)]
pub enum Shape {
    Star,
    Chain,
    Binary,
    Random,
    CaterpillarDown,
    CaterpillarUp,
}

impl Shape {
    pub fn name(self, delays: Delays) -> &'static str {
        match (self, delays) {
            (Shape::Star, _) => "star",
            (Shape::Chain, _) => "chain",
            (Shape::Binary, _) => "binary",
            (Shape::Random, _) => "random",
            (_, Delays::Equal) => "caterpillar",
            (Shape::CaterpillarDown, _) => "caterpillar down",
            (Shape::CaterpillarUp, _) => "caterpillar up",
        }
    }

    /// The shape that has this name with spread delays.
    pub fn named(name: &str) -> Option<Shape> {
        let all = [
            Shape::Star,
            Shape::Chain,
            Shape::Binary,
            Shape::Random,
            Shape::CaterpillarDown,
            Shape::CaterpillarUp,
        ];
        all.into_iter()
            .find(|shape| shape.name(Delays::Spread) == name)
    }

    pub fn caterpillar(self) -> bool {
        matches!(self, Shape::CaterpillarDown | Shape::CaterpillarUp)
    }
}

#[derive(Clone, Copy, PartialEq, Eq)]
pub enum Delays {
    Spread,
    Equal,
}

impl Delays {
    pub fn name(self) -> &'static str {
        match self {
            Delays::Spread => "spread",
            Delays::Equal => "equal",
        }
    }
}

/// How large the frames are.
#[derive(Clone, Copy, PartialEq, Eq)]
pub enum Film {
    /// Groups of twelve, and scenes of differing weight.
    Scenes,
    /// Large and small in turn.
    Alternating,
}

impl Film {
    pub fn name(self) -> &'static str {
        match self {
            Film::Scenes => "scenes",
            Film::Alternating => "alternating",
        }
    }

    fn group(self) -> &'static [u8] {
        match self {
            Film::Scenes => b"IBBPBBPBBPBB",
            Film::Alternating => b"IB",
        }
    }
}

/// How the rates of the links lie.
#[derive(Clone, Copy, PartialEq, Eq)]
pub enum Rates {
    /// In any order.
    Mixed,
    /// Each link's above that of the link before it.
    Rising,
}

impl Rates {
    pub fn name(self) -> &'static str {
        match self {
            Rates::Mixed => "mixed",
            Rates::Rising => "rising",
        }
    }
}

pub struct Job {
    pub bytes: Vec<u8>,
    pub parent: Vec<usize>,
    pub memory: Vec<u64>,
    pub slots: usize,
}

/// A splitmix64 sequence.
struct Random(u64);

impl Random {
    fn next(&mut self) -> u64 {
        self.0 = self.0.wrapping_add(0x9e37_79b9_7f4a_7c15);
        let mut z = self.0;
        z = (z ^ (z >> 30)).wrapping_mul(0xbf58_476d_1ce4_e5b9);
        z = (z ^ (z >> 27)).wrapping_mul(0x94d0_49bb_1331_11eb);
        z ^ (z >> 31)
    }

    /// A number from `low` to `high`, both included.
    fn between(&mut self, low: u64, high: u64) -> u64 {
        low + self.next() % (high - low + 1)
    }
}

/// Frame sizes in groups, with noise on every frame.
fn frame_sizes(film: Film, frames: usize, random: &mut Random) -> Vec<u64> {
    let group = film.group();
    let mut scene = 100;
    let mut sizes = Vec::with_capacity(frames);
    for m in 0..frames {
        if film == Film::Scenes && m % group.len() == 0 && random.between(1, 12) == 1 {
            scene = random.between(40, 250);
        }
        let base = match group[m % group.len()] {
            b'I' => 60_000,
            b'P' => 25_000,
            _ => 9_000,
        };
        sizes.push(base * scene * random.between(65, 135) / 10_000);
    }
    sizes
}

/// The parent of each node; node 0 is the root.
fn tree(shape: Shape, n: usize, random: &mut Random) -> Vec<usize> {
    let spine = (n - 2) / 2;
    (0..n)
        .map(|v| match shape {
            _ if v <= 1 => 0,
            Shape::Star => 1,
            Shape::Chain => v - 1,
            Shape::Binary => v / 2,
            Shape::Random => random.next() as usize % v,
            Shape::CaterpillarDown | Shape::CaterpillarUp => {
                if v <= spine {
                    v - 1
                } else {
                    (v - spine).min(spine)
                }
            }
        })
        .collect()
}

/// The delay of each node: 0 at inner nodes; at the leaves from 0 to the greatest, or a
/// quarter of that at all of them.
fn leaf_delays(
    shape: Shape,
    delays: Delays,
    greatest: usize,
    leaf: &[bool],
    random: &mut Random,
) -> Vec<usize> {
    let count = leaf.iter().filter(|&&is| is).count();
    let mut values: Vec<usize> = (0..count)
        .map(|i| match delays {
            Delays::Equal => greatest / 4,
            Delays::Spread if count == 1 => greatest,
            Delays::Spread => i * greatest / (count - 1),
        })
        .collect();
    match shape {
        Shape::CaterpillarDown => {}
        Shape::CaterpillarUp => values.reverse(),
        _ => {
            for i in (1..count).rev() {
                values.swap(i, random.next() as usize % (i + 1));
            }
        }
    }
    let mut values = values.into_iter();
    leaf.iter()
        .map(|&is| if is { values.next().unwrap_or(0) } else { 0 })
        .collect()
}

/// The most bytes that any `gap` frames in a row have.
fn heaviest(sums: &[u64], gap: usize) -> u64 {
    let frames = sums.len() - 1;
    if gap >= frames {
        return sums[frames];
    }
    (0..=frames - gap)
        .map(|m| sums[m + gap] - sums[m])
        .max()
        .unwrap_or(0)
}

struct Record {
    parent: usize,
    delay: usize,
    memory: u64,
    rate: u64,
}

fn encode(records: impl ExactSizeIterator<Item = Record>, sizes: &[u64]) -> Vec<u8> {
    let mut bytes = b"RLY\x00\x01".to_vec();
    bytes.push(records.len() as u8 + 1);
    bytes.extend((sizes.len() as u32).to_be_bytes());
    for record in records {
        bytes.push(record.parent as u8);
        bytes.extend((record.delay as u16).to_be_bytes());
        bytes.extend(record.memory.to_be_bytes());
        bytes.extend(record.rate.to_be_bytes());
    }
    for &size in sizes {
        bytes.extend((size as u32).to_be_bytes());
    }
    bytes
}

pub struct Rated {
    pub bytes: Vec<u8>,
    /// How many floor rates differ.
    pub floors: usize,
    /// Bytes of a frame, on average.
    pub mean: u64,
}

/// How many of the floor rates differ, where each is the least of a link's own rate and those
/// below it.
fn different_floors(parent: &[usize], rate: &[u64]) -> usize {
    let mut floor = rate.to_vec();
    for v in (1..parent.len()).rev() {
        let u = parent[v];
        if u != 0 {
            floor[u - 1] = floor[u - 1].min(floor[v - 1]);
        }
    }
    floor.sort_unstable();
    floor.dedup();
    floor.len()
}

/// A job for the rate question: no two links have one rate, and the least is a little above
/// the mean frame, so that some delay serves.
pub fn rated(shape: Shape, rates: Rates, film: Film, n: usize, frames: usize) -> Rated {
    let mut random = Random(0x52_4c5a);
    let sizes = frame_sizes(film, frames, &mut random);
    let mean = sizes.iter().sum::<u64>() / frames as u64;
    let parent = tree(shape, n, &mut random);
    // From 1.03 to about 3 times the mean.
    let mut rate: Vec<u64> = (1..n as u64)
        .map(|i| mean * (100 + 3 * i) / 100 + i)
        .collect();
    if rates == Rates::Mixed {
        for i in (1..n - 1).rev() {
            rate.swap(i, random.next() as usize % (i + 1));
        }
    }
    let records = (1..n).map(|v| Record {
        parent: parent[v],
        delay: 0,
        memory: 0,
        rate: rate[v - 1],
    });
    Rated {
        bytes: encode(records, &sizes),
        floors: different_floors(&parent, &rate),
        mean,
    }
}

/// The memory of each node. A leaf holds a few to many frames; an inner node holds half to
/// all of what the delays below it ask for, and the leaves the rest, so that the boxes bind.
fn memories(
    parent: &[usize],
    leaf: &[bool],
    delay: &[usize],
    sums: &[u64],
    random: &mut Random,
) -> Vec<u64> {
    let n = parent.len();
    let mean = sums[sums.len() - 1] / (sums.len() - 1) as u64;
    let mut memory = vec![0; n];
    // The leaves below each node, each with the memory on the way to it from that node.
    let mut below: Vec<Vec<(usize, u64)>> = vec![Vec::new(); n];
    let mut earliest = delay.to_vec();
    for v in (1..n).rev() {
        if leaf[v] {
            memory[v] = random.between(2 * mean, 60 * mean);
            below[v].push((delay[v], 0));
        } else {
            earliest[v] = below[v].iter().map(|&(d, _)| d).min().unwrap_or(0);
            let needs = below[v]
                .iter()
                .map(|&(d, held)| heaviest(sums, d - earliest[v]).saturating_sub(held));
            let need = needs.max().unwrap_or(0);
            memory[v] = need * random.between(50, 100) / 100 + random.between(1, mean);
        }
        let passed: Vec<(usize, u64)> = below[v]
            .iter()
            .map(|&(d, held)| (d, held + memory[v]))
            .collect();
        below[parent[v]].extend(passed);
    }
    for v in (1..n).filter(|&v| leaf[v]) {
        memory[v] = made_up(v, parent, delay[v], &earliest, &memory, sums);
    }
    memory
}

/// The memory of leaf v, enough to make up for what the boxes above it do not hold.
fn made_up(
    v: usize,
    parent: &[usize],
    delay: usize,
    earliest: &[usize],
    memory: &[u64],
    sums: &[u64],
) -> u64 {
    let mut enough = memory[v];
    let mut held = 0;
    let mut a = parent[v];
    while a != 0 {
        held += memory[a];
        let most = heaviest(sums, delay - earliest[a]);
        enough = enough.max(most.saturating_sub(held));
        a = parent[a];
    }
    enough
}

/// A job that has a plan.
pub fn make(shape: Shape, delays: Delays, greatest: usize, n: usize, frames: usize) -> Job {
    let mut random = Random(0x52_4c59);
    let sizes = frame_sizes(Film::Scenes, frames, &mut random);
    let mut sums = vec![0];
    for size in &sizes {
        sums.push(sums[sums.len() - 1] + size);
    }
    let mean = sums[frames] / frames as u64;
    let parent = tree(shape, n, &mut random);
    let mut leaf = vec![true; n];
    for v in 1..n {
        leaf[parent[v]] = false;
    }
    let delay = leaf_delays(shape, delays, greatest, &leaf, &mut random);
    let memory = memories(&parent, &leaf, &delay, &sums, &mut random);
    let records = (1..n).map(|v| Record {
        parent: parent[v],
        delay: delay[v],
        memory: memory[v],
        rate: 4 * mean,
    });
    let bytes = encode(records, &sizes);
    let last = delay.iter().max().unwrap_or(&0);
    Job {
        bytes,
        parent,
        memory,
        slots: frames + last + 1,
    }
}
