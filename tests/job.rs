//! A job as fields, and its bytes.

pub const MOST_NODES: usize = 64;
pub const MOST_FRAMES: usize = 65_536;
pub const GREATEST_DELAY: u16 = 4_096;
pub const GREATEST_AMOUNT: u64 = 17_592_186_044_415;
pub const GREATEST_FRAME: u32 = 268_435_455;

pub const HEADER_BYTES: usize = 10;
pub const RECORD_BYTES: usize = 19;
pub const FRAME_BYTES: usize = 4;

/// What a job says of one node other than the root.
#[derive(Clone, Default)]
pub struct Record {
    pub parent: u8,
    pub delay: u16,
    pub memory: u64,
    pub rate: u64,
}

/// Any values may stand in the fields: the counts in the header need not be
/// those of the lists.
#[derive(Clone)]
pub struct Job {
    pub mark: [u8; 3],
    pub version: u16,
    pub node_count: u8,
    pub frame_count: u32,
    pub records: Vec<Record>,
    pub frames: Vec<u32>,
}

impl Job {
    /// The job with these lists and a header that fits them.
    pub fn new(records: Vec<Record>, frames: Vec<u32>) -> Self {
        Job {
            mark: *b"RLY",
            version: 1,
            node_count: u8::try_from(records.len() + 1).expect("at most 255 nodes"),
            frame_count: u32::try_from(frames.len()).expect("frame count in 32 bits"),
            records,
            frames,
        }
    }

    /// Whether `node` is some node's parent.
    pub fn is_inner(&self, node: usize) -> bool {
        self.records
            .iter()
            .any(|record| usize::from(record.parent) == node)
    }

    /// The nodes other than the root that are inner (or are leaves).
    pub fn nodes(&self, inner: bool) -> Vec<usize> {
        (1..=self.records.len())
            .filter(|&node| self.is_inner(node) == inner)
            .collect()
    }

    /// The children of each node, the root's first.
    pub fn children(&self) -> Vec<Vec<usize>> {
        let mut children = vec![Vec::new(); self.records.len() + 1];
        for (node, record) in (1..).zip(&self.records) {
            children[usize::from(record.parent)].push(node);
        }
        children
    }

    /// The record of `node`, which is above 0.
    pub fn record(&mut self, node: usize) -> &mut Record {
        &mut self.records[node - 1]
    }

    pub fn length(&self) -> usize {
        HEADER_BYTES + RECORD_BYTES * self.records.len() + FRAME_BYTES * self.frames.len()
    }

    /// The job that `bytes` hold, which have its form.
    pub fn decode(bytes: &[u8]) -> Self {
        fn number(bytes: &[u8]) -> u64 {
            bytes
                .iter()
                .fold(0, |all, &byte| all << 8 | u64::from(byte))
        }
        let (records, frames) =
            bytes[HEADER_BYTES..].split_at(RECORD_BYTES * (usize::from(bytes[5]) - 1));
        let record = |bytes: &[u8]| Record {
            parent: bytes[0],
            delay: number(&bytes[1..3]) as u16,
            memory: number(&bytes[3..11]),
            rate: number(&bytes[11..19]),
        };
        Job::new(
            records.chunks(RECORD_BYTES).map(record).collect(),
            frames
                .chunks(FRAME_BYTES)
                .map(|frame| number(frame) as u32)
                .collect(),
        )
    }

    pub fn encode(&self) -> Vec<u8> {
        let mut bytes = Vec::with_capacity(self.length());
        bytes.extend(self.mark);
        bytes.extend(self.version.to_be_bytes());
        bytes.push(self.node_count);
        bytes.extend(self.frame_count.to_be_bytes());
        for record in &self.records {
            bytes.push(record.parent);
            bytes.extend(record.delay.to_be_bytes());
            bytes.extend(record.memory.to_be_bytes());
            bytes.extend(record.rate.to_be_bytes());
        }
        for frame in &self.frames {
            bytes.extend(frame.to_be_bytes());
        }
        bytes
    }
}
