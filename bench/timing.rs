//! Seconds of the library and of a peer, and what a table says of them.

/// Each side is timed so often, in turn; its best time counts.
const RUNS: usize = 9;
/// A question that takes less than this many seconds is asked again and again for that long.
const REPEAT: f64 = 0.02;

#[repr(C)]
struct Timespec {
    seconds: i64,
    nanoseconds: i64,
}

extern "C" {
    fn clock_gettime(clock: i32, time: *mut Timespec) -> i32;
}

/// Linux's number for the clock of the calling thread.
const THREAD_CLOCK: i32 = 3;

/// Seconds that this thread has had a core, in the system too. The clock stands still while
/// other work has the core.
fn now() -> f64 {
    let mut time = Timespec {
        seconds: 0,
        nanoseconds: 0,
    };
    // SAFETY: the pointer is to a timespec as C has it on 64-bit Linux.
    let failed = unsafe { clock_gettime(THREAD_CLOCK, &mut time) };
    assert_eq!(failed, 0, "no clock of the thread");
    time.seconds as f64 + time.nanoseconds as f64 * 1e-9
}

/// Seconds for a question that is asked once.
pub fn once(question: impl FnOnce()) -> f64 {
    let start = now();
    question();
    now() - start
}

/// Seconds for a question, on average over repeats if it is short.
pub fn seconds(mut question: impl FnMut()) -> f64 {
    let start = now();
    let (mut count, mut batch) = (0_u32, 1);
    loop {
        for _ in 0..batch {
            question();
        }
        count += batch;
        let taken = now() - start;
        if taken >= REPEAT {
            return taken / f64::from(count);
        }
        // As many again, so that the clock is seldom read.
        batch = count;
    }
}

/// The best seconds of each side for one question.
pub struct Times {
    pub library: f64,
    pub peer: f64,
}

impl Times {
    pub fn ratio(&self) -> f64 {
        self.library / self.peer
    }
}

/// The best of several runs of each side, in turn; a run gives its seconds.
pub fn best(mut library: impl FnMut() -> f64, mut peer: impl FnMut() -> f64) -> Times {
    let mut times = Times {
        library: f64::INFINITY,
        peer: f64::INFINITY,
    };
    for _ in 0..RUNS {
        times.library = times.library.min(library());
        times.peer = times.peer.min(peer());
    }
    times
}

/// What has been seen in the rows of one question.
pub struct Tally {
    question: &'static str,
    agreed: bool,
    rows: u32,
    over: u32,
    void: u32,
    worst: (f64, String),
}

impl Tally {
    pub fn new(question: &'static str) -> Tally {
        Tally {
            question,
            agreed: true,
            rows: 0,
            over: 0,
            void: 0,
            worst: (0.0, String::new()),
        }
    }

    /// The ratio, the bar if there is one, and whether the ratio is within it.
    pub fn judge(&mut self, row: &str, ratio: f64, bar: Option<f64>) -> String {
        self.rows += 1;
        if ratio > self.worst.0 {
            self.worst = (ratio, row.to_string());
        }
        let Some(bar) = bar else {
            return format!("{ratio:>6.2}");
        };
        let over = ratio > bar;
        self.over += u32::from(over);
        let verdict = if over { "over" } else { "ok" };
        format!("{ratio:>6.2} {bar:>4.1} {verdict}")
    }

    /// The ratio of a row that shows nothing, as the peer was slow.
    pub fn void(&mut self, ratio: f64) -> String {
        self.rows += 1;
        self.void += 1;
        format!("{ratio:>6.2} {:>4} void", "-")
    }

    pub fn mismatch(&mut self, row: &str, what: &str) {
        println!("{row} MISMATCH: {what}");
        self.agreed = false;
    }

    /// Prints the count of rows; says whether the two sides agreed in all of them.
    pub fn close(self) -> bool {
        let worst: Vec<&str> = self.worst.1.split_whitespace().collect();
        println!(
            "\n{}: {} rows, {} over the bar, {} void; worst ratio {:.2} ({})",
            self.question,
            self.rows,
            self.over,
            self.void,
            self.worst.0,
            worst.join(" ")
        );
        self.agreed
    }
}

/// Nodes and frames of the lines in which the slots double, and then the nodes.
pub const SLOTS_DOUBLE: [(usize, usize); 5] = [
    (16, 4_096),
    (16, 8_192),
    (16, 16_384),
    (16, 32_768),
    (16, 65_536),
];
pub const NODES_DOUBLE: [(usize, usize); 5] = [
    (4, 16_384),
    (8, 16_384),
    (16, 16_384),
    (32, 16_384),
    (64, 16_384),
];

/// Work and time of the line before, where there is one.
pub struct Growth(Option<(f64, f64)>);

/// Headings of what `since` gives.
pub const GROWTH: &str = " work x time x";

impl Growth {
    pub fn new() -> Growth {
        Growth(None)
    }

    /// By how much the work and the library's time have grown since the line before.
    pub fn since(&mut self, work: f64, seconds: f64) -> String {
        let before = self.0.replace((work, seconds));
        match before {
            None => format!(" {:>6} {:>6}", "-", "-"),
            Some((w, s)) => format!(" {:>6.2} {:>6.2}", work / w, seconds / s),
        }
    }
}
