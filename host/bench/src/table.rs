//! Times, as rows of a table. The library, plain Rust and memcpy run in turn, round after round, and the best round of each
//! counts: whatever else the machine does, it does to all three.

use std::time::Instant;

/// How long is measured: rounds of a row, and nanoseconds of a round.
#[derive(Clone, Copy)]
pub struct Effort {
    rounds: usize,
    round_ns: f64,
}

impl Effort {
    pub const WHOLE: Effort = Effort { rounds: 25, round_ns: 1e6 };
    /// Enough to compare the results, not to believe the times.
    pub const SHORT: Effort = Effort { rounds: 2, round_ns: 1e4 };
}

/// A job. All jobs of a row work on the same state, so that they touch the same memory, which is warm after the first round.
pub type Job<'a, S> = &'a dyn Fn(&mut S);

/// How many times slower than plain Rust and than memcpy the library may be.
#[derive(Clone, Copy, Default)]
pub struct Goal {
    pub plain: Option<f64>,
    pub memcpy: Option<f64>,
}

/// What one row measures.
pub struct Row<'a, S> {
    pub name: &'a str,
    /// The library and all others gave the same results when they were compared.
    pub same: bool,
    pub library: Job<'a, S>,
    /// Ways to do it in plain Rust; the fastest counts.
    pub plain: &'a [Job<'a, S>],
    pub memcpy: Option<Job<'a, S>>,
    pub goal: Goal,
    /// Where regions grow: how many samples this one has, and the last column says the time of one.
    pub samples: Option<u128>,
}

/// The best times of a row, in nanoseconds a call.
#[derive(Clone, Copy)]
pub struct Times {
    pub library: f64,
    pub plain: f64,
    pub memcpy: Option<f64>,
}

/// What all tables together found.
pub struct Report {
    effort: Effort,
    title: String,
    unequal: Vec<String>,
    missed: usize,
    rows: usize,
    noise: Vec<f64>,
}

/// The rounds of one job.
struct Rounds {
    calls: usize,
    times: Vec<f64>,
}

impl Rounds {
    /// Finds how many calls make up a round.
    fn calibrate<S>(job: Job<S>, state: &mut S, effort: Effort) -> Self {
        let mut calls = 1;
        while calls < 1 << 24 {
            let ns = time(job, state, calls) * calls as f64;
            if ns >= effort.round_ns / 2.0 {
                break;
            }
            calls *= 2;
        }
        Rounds { calls, times: Vec::with_capacity(effort.rounds) }
    }

    fn run<S>(&mut self, job: Job<S>, state: &mut S) {
        self.times.push(time(job, state, self.calls));
    }

    fn best(&self) -> f64 {
        self.times.iter().copied().fold(f64::MAX, f64::min)
    }

    /// How far the median round is above the best one.
    fn noise(&self) -> f64 {
        let mut sorted = self.times.clone();
        sorted.sort_unstable_by(f64::total_cmp);
        sorted[sorted.len() / 2] / sorted[0] - 1.0
    }
}

fn time<S>(job: Job<S>, state: &mut S, calls: usize) -> f64 {
    let start = Instant::now();
    for _ in 0..calls {
        job(state);
    }
    start.elapsed().as_nanos() as f64 / calls as f64
}

impl Report {
    pub fn new(effort: Effort) -> Self {
        Report { effort, title: String::new(), unequal: Vec::new(), missed: 0, rows: 0, noise: Vec::new() }
    }

    /// Starts a table, of times against something's.
    pub fn title(&mut self, title: &str, against: &str) {
        self.title = title.to_string();
        println!("\n## {title}\n");
        println!("| case | library | {against} | ratio | memcpy | ratio | |");
        println!("|---|---:|---:|---:|---:|---:|---|");
    }

    /// Times a row and prints it. Only where both did the same job are times worth anything.
    pub fn row<S>(&mut self, row: Row<S>, state: &mut S) -> Option<Times> {
        if !row.same {
            println!("| {} | UNEQUAL RESULTS | | | | | |", row.name);
            self.unequal.push(format!("{}: {}", self.title, row.name));
            return None;
        }
        let effort = self.effort;
        let mut library = Rounds::calibrate(row.library, state, effort);
        let mut plain: Vec<_> = row.plain.iter().map(|job| Rounds::calibrate(*job, state, effort)).collect();
        let mut memcpy = row.memcpy.map(|job| (job, Rounds::calibrate(job, state, effort)));
        for _ in 0..effort.rounds {
            library.run(row.library, state);
            plain.iter_mut().zip(row.plain).for_each(|(rounds, job)| rounds.run(*job, state));
            if let Some((job, rounds)) = &mut memcpy {
                rounds.run(*job, state);
            }
        }
        self.noise.push(library.noise());
        let fastest = plain.iter().map(Rounds::best).fold(f64::MAX, f64::min);
        let times = Times { library: library.best(), plain: fastest, memcpy: memcpy.map(|(_, rounds)| rounds.best()) };
        self.print(row.name, times, row.goal, row.samples);
        Some(times)
    }

    fn print(&mut self, name: &str, times: Times, goal: Goal, samples: Option<u128>) {
        self.rows += 1;
        let slower = times.library / times.plain;
        let (copy, slower_than_copy) = match times.memcpy {
            Some(ns) => (duration(ns), format!("{:.2}", times.library / ns)),
            None => (String::new(), String::new()),
        };
        let mark = match samples {
            Some(n) => format!("{:.3} ns a sample, plain Rust {:.3}", times.library / n as f64, times.plain / n as f64),
            None => self.mark(times, goal),
        };
        let (library, plain) = (duration(times.library), duration(times.plain));
        println!("| {name} | {library} | {plain} | {slower:.2} | {copy} | {slower_than_copy} | {mark} |");
    }

    /// What the last column says.
    fn mark(&mut self, times: Times, goal: Goal) -> String {
        let over = |ns: Option<f64>, goal: Option<f64>, what: &str| match (ns, goal) {
            (Some(ns), Some(goal)) if times.library > goal * ns => Some(format!("over {goal} of {what}")),
            _ => None,
        };
        let misses = [over(Some(times.plain), goal.plain, "plain Rust"), over(times.memcpy, goal.memcpy, "memcpy")];
        let mark = misses.into_iter().flatten().collect::<Vec<_>>().join(", ");
        self.missed += usize::from(!mark.is_empty());
        mark
    }

    /// Notes a goal that is not a row's.
    pub fn goal(&mut self, name: &str, met: bool) {
        println!("\nGoal, {name}: {}.", if met { "met" } else { "missed" });
        self.missed += usize::from(!met);
    }

    /// Says how it went. False where results were unequal.
    pub fn finish(self) -> bool {
        let mut noise = self.noise;
        noise.sort_unstable_by(f64::total_cmp);
        let middle = noise.get(noise.len() / 2).copied().unwrap_or(0.0) * 100.0;
        println!("\n{} rows, best of {} rounds each; the median round is {middle:.0}% above the best.", self.rows, self.effort.rounds);
        println!("Rows and goals missed: {}.", self.missed);
        for name in &self.unequal {
            println!("UNEQUAL RESULTS: {name}");
        }
        self.unequal.is_empty()
    }
}

/// A time for people.
pub fn duration(ns: f64) -> String {
    match ns {
        _ if ns < 1e3 => format!("{ns:.1} ns"),
        _ if ns < 1e6 => format!("{:.2} us", ns / 1e3),
        _ => format!("{:.2} ms", ns / 1e6),
    }
}
