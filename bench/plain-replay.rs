//! A plain program of a replay, which bench/replay.sh compares with `wbsim replay`: it reads a lawful trace on standard input and prints the
//! same journal. It has no proofs and judges no trace: of one that isn't lawful nothing is said. Nothing rests on it.
//!
//! With the words `forecast EVERY` it prints what `wbsim forecast EVERY` does, which bench/forecast.sh compares, and with a third word `steps` on
//! standard error how many steps were made. It keeps no journal then. It doesn't ask whether moments could come too late.
//!
//! Its formulas are those of docs/LAWS.md, and its turns those of docs/FORMATS.md. A turn that has come to a step is kept as that step, and
//! making the step gives the next one of the turn, if there is one. The lines of steps are kept as the text that is printed.

use std::collections::{BTreeSet, VecDeque};
use std::io::{self, Read, Write};
use std::process::ExitCode;

const MOST_STEPS: usize = 1 << 22;
const MOST_FORECAST_STEPS: usize = 1 << 40;
const TIMER_REST: i64 = 200;
const PERIOD: i64 = 3000;
const FLUSHER_REST: i64 = 100;
const ESTIMATE_AGE: i64 = 200;
const GREATEST_LIMIT: i64 = (1 << 32) - 1;
const LAST_PERIOD: i64 = (1 << 24) - 1;
const MOST_NOTICED: usize = 64;
const FIRST_RATE: i64 = 25600;
const FIRST_ALLOWANCE: i64 = 32;
const FEW: i64 = 32;

// ---- the laws

fn log2(n: i64) -> i64 {
    i64::from(63 - n.leading_zeros())
}

fn ceil_div(a: i64, b: i64) -> i64 {
    (a + b - 1) / b
}

fn less(a: i64, b: i64) -> i64 {
    (a - b).max(0)
}

#[derive(Clone, Copy, Default)]
struct Limits {
    thresh: i64,
    background: i64,
    hard: i64,
}

impl Limits {
    fn freerun(&self) -> i64 {
        (self.thresh + self.background) / 2
    }

    fn setpoint(&self) -> i64 {
        (self.freerun() + self.hard) / 2
    }
}

/// Pages or percents: threshold and background threshold as they are set.
#[derive(Clone, Copy)]
struct Settings {
    ratio: i64,
    background_ratio: i64,
    bytes: i64,
    background_bytes: i64,
}

/// Threshold and background threshold of a domain: of a cgroup where the pages of the machine are given.
fn thresholds(set: &Settings, avail: i64, machine: Option<i64>) -> (i64, i64) {
    let of = |bytes: i64, percent: i64| {
        let share = match (bytes, machine) {
            (0, _) => percent * 4096 / 100,
            (bytes, None) => return ceil_div(bytes, 4096).min(GREATEST_LIMIT),
            (_, Some(0)) => 4096,
            (bytes, Some(machine)) => ceil_div(bytes, machine).min(4096),
        };
        (share * avail / 4096).min(GREATEST_LIMIT)
    };
    let thresh = of(set.bytes, set.ratio);
    let background = of(set.background_bytes, set.background_ratio);
    (thresh, if background < thresh { background } else { thresh / 2 })
}

fn cgroup_avail(file_pages: i64, headroom: i64, dirty: i64, avail: i64, all_dirty: i64) -> i64 {
    let clean = less(file_pages, dirty);
    let all_clean = less(avail, all_dirty);
    file_pages + headroom.min(less(all_clean, clean))
}

fn follow(limit: i64, thresh: i64, dirty: i64) -> i64 {
    let target = thresh.max(dirty);
    if limit < thresh {
        thresh
    } else if limit > target {
        limit - ((limit - target) >> 5)
    } else {
        limit
    }
}

fn chunk_of(average: i64, hard: i64) -> i64 {
    ((average / 2).min(hard / 8) + 1024) / 1024 * 1024
}

/// A part of a domain's events, or all of them, with the period that it is of.
#[derive(Clone, Copy, Default)]
struct Half {
    period: i64,
    events: i64,
}

impl Half {
    fn age(&mut self, period: i64) {
        let distance = period - self.period;
        self.events = if distance < 64 { self.events >> distance } else { 0 };
        self.period = period;
    }

    fn new_period(&mut self, by: i64) -> bool {
        if self.events <= 1 || self.period + by > LAST_PERIOD {
            return false;
        }
        self.age(self.period + by);
        true
    }
}

fn polynom(setpoint: i64, dirty: i64, limit: i64) -> i64 {
    let x = i128::from((setpoint - dirty) * 1024 / ((limit - setpoint) | 1));
    let p = ((x * x) >> 10) * x >> 10;
    (p + 1024).clamp(0, 2048) as i64
}

/// What a check read of a domain: its limits, its pages, and the context's threshold in it.
#[derive(Clone, Copy)]
struct Read1 {
    limits: Limits,
    dirty: i64,
    own: i64,
}

impl Read1 {
    fn ratio(&self, pages: i64, average: i64) -> i64 {
        let Limits { thresh, hard, .. } = self.limits;
        if self.dirty >= hard {
            return 0;
        }
        let setpoint = self.limits.setpoint();
        let mut p = i128::from(polynom(setpoint, self.dirty, hard));
        let weight = self.own.min(thresh).max((hard - self.dirty) / 8);
        let share = (i128::from(weight) << 16) / i128::from(thresh | 1);
        let middle = (i128::from(setpoint) * share) >> 16;
        let span = (i128::from(less(thresh, weight) + 8 * average) * share) >> 16;
        let end = middle + span;
        let (wide, half) = (i128::from(pages), i128::from(weight / 2));
        p = if wide < end - span / 4 { p * (end - wide) / ((end - middle) | 1) } else { p / 4 };
        if wide < half {
            p = if wide > half / 8 { p * half / wide } else { p * 8 };
        }
        p.min((1 << 32) - 1) as i64
    }

    fn own_background(&self) -> i64 {
        if self.limits.thresh == 0 {
            return 0;
        }
        (i128::from(self.own) * i128::from(self.limits.background) / i128::from(self.limits.thresh)) as i64
    }

    fn own_freerun(&self) -> i64 {
        (self.own + self.own_background()) / 2
    }

    fn strict_ratio(&self, pages: i64) -> i64 {
        let Limits { hard, .. } = self.limits;
        if self.dirty >= hard {
            return 0;
        }
        let of_domain = polynom(self.limits.setpoint(), self.dirty, hard);
        let middle = self.own_freerun();
        if pages < 8 {
            (2 * of_domain).min(2048)
        } else if pages >= self.own || middle == 0 || middle == self.own {
            0
        } else {
            of_domain.min(polynom(middle, pages, self.own))
        }
    }
}

fn poll_interval(dirty: i64, thresh: i64) -> i64 {
    if thresh > dirty { 1 << (log2(thresh - dirty) / 2) } else { 1 }
}

#[derive(Clone, Copy)]
struct Estimate {
    version: i64,
    at: i64,
    written: i64,
    dirtied: i64,
    bandwidth: i64,
    average: i64,
    ratelimit: i64,
    balanced: i64,
}

impl Estimate {
    fn first() -> Estimate {
        Estimate::given(FIRST_RATE, FIRST_RATE, FIRST_RATE)
    }

    fn given(bandwidth: i64, average: i64, ratelimit: i64) -> Estimate {
        Estimate { version: 0, at: 1, written: 0, dirtied: 0, bandwidth, average, ratelimit, balanced: ratelimit }
    }

    fn update(&mut self, now: i64, written: i64, dirtied: i64, ratio: i64, is_below: bool) {
        let elapsed = now - self.at;
        let rate = less(dirtied, self.dirtied) * 1000 / elapsed;
        let task = ((i128::from(self.ratelimit) * i128::from(ratio)) >> 10) as i64 + 1;
        let balanced = ((i128::from(task) * i128::from(self.average) / i128::from(rate | 1)).min(i128::from(self.average))) as i64;
        let around = [self.balanced, balanced, task];
        let step = if is_below {
            less(*around.iter().min().unwrap(), self.ratelimit)
        } else {
            less(self.ratelimit, *around.iter().max().unwrap())
        };
        let shift = self.ratelimit / (2 * step + 1);
        let step = if shift < 64 { ceil_div(step >> shift, 8) } else { 0 };
        self.ratelimit = if self.ratelimit < balanced { self.ratelimit + step } else { self.ratelimit - step }.max(1);
        self.balanced = balanced;
        let grown = less(written, self.written) * 1000;
        if elapsed > 4096 {
            self.bandwidth = grown / elapsed;
            self.average = self.bandwidth;
        } else {
            let new = (grown + self.bandwidth * (4096 - elapsed)) / 4096;
            if self.average > self.bandwidth && self.bandwidth >= new {
                self.average -= (self.average - self.bandwidth) >> 3;
            } else if self.average < self.bandwidth && self.bandwidth <= new {
                self.average += (self.bandwidth - self.average) >> 3;
            }
            self.bandwidth = new;
        }
        self.average = self.average.max(1);
        self.version += 1;
        (self.at, self.written, self.dirtied) = (now, written, dirtied);
    }
}

/// Pages dirtied since the last pause, the allowance, and the moment at which that pause ended.
#[derive(Clone, Copy)]
struct Numbers {
    dirtied: i64,
    allowance: i64,
    ended: i64,
}

#[derive(Clone, Copy)]
struct Verdict {
    kind: &'static str,
    pause: i64,
    left: i64,
    task: Numbers,
    exceeded: bool,
}

/// The pages of the next allowance, and the pause below which none is made.
fn min_pause(most: i64, rate: i64, average: i64, ratelimit: i64) -> (i64, i64) {
    let grown = less(log2(average), log2(ratelimit)) * 10000 / 1024;
    let mut ticks = (10 + grown).min(1 + most / 2);
    let mut pages = ratelimit * ticks / 1024;
    if pages < FEW {
        ticks = most;
        pages = ratelimit * ticks / 1024;
        if pages > FEW {
            (pages, ticks) = (FEW, 1000 * FEW / ratelimit);
        }
    }
    if 1000 * pages / (rate + 1) > most {
        ticks = most;
        pages = rate * ticks / 1024;
    }
    (pages, if pages >= FEW { 1 + ticks / 2 } else { ticks })
}

fn left_of(task: Numbers, cap: i64) -> i64 {
    (task.allowance - task.dirtied).max(1).min(cap)
}

fn decide(is_strict: bool, reads: &[Read1], pages: i64, it: &Estimate, task: Numbers, now: i64, error: i64, cap: i64) -> Verdict {
    let free = reads.iter().all(|read| {
        if is_strict {
            pages <= read.own_freerun() && read.dirty <= read.limits.hard
        } else {
            read.dirty <= read.limits.freerun()
        }
    });
    if free {
        let poll = |read: &Read1| if is_strict { poll_interval(pages, read.own) } else { poll_interval(read.dirty, read.limits.thresh) };
        let allowance = reads.iter().map(poll).min().unwrap();
        let task = Numbers { dirtied: 0, allowance, ended: now };
        return Verdict { kind: "free", pause: 0, left: left_of(task, cap), task, exceeded: false };
    }
    let ratio = |read: &Read1| if is_strict { read.strict_ratio(pages) } else { read.ratio(pages, it.average) };
    let ratio = reads.iter().map(ratio).min().unwrap();
    let exceeded = reads.iter().any(|read| pages > read.own && (is_strict || read.dirty > read.limits.thresh));
    let rate = ((i128::from(it.ratelimit) * i128::from(ratio)) >> 10) as i64;
    let longest = (pages / (1 + it.average / 128) + 1).min(200);
    let (allowance, least) = min_pause(longest, rate, it.average, it.ratelimit);
    if rate == 0 {
        let task = Numbers { dirtied: 0, allowance, ended: now + longest };
        let (kind, left) = if pages <= error { ("exempt", left_of(task, cap)) } else { ("wait", 0) };
        return Verdict { kind, pause: longest, left, task, exceeded };
    }
    let period = 1000 * task.dirtied / rate;
    let wanted = period - if task.ended == 0 { 0 } else { now - task.ended };
    let mut pause = 0;
    let task = if wanted >= least {
        pause = wanted.min(longest);
        Numbers { dirtied: 0, allowance, ended: now + pause + (wanted - pause).min(longest) }
    } else if wanted < -1000 {
        Numbers { dirtied: 0, ended: now, ..task }
    } else if period > 0 {
        Numbers { dirtied: 0, ended: task.ended + period, ..task }
    } else if task.allowance <= task.dirtied {
        Numbers { allowance: task.allowance + task.dirtied, ..task }
    } else {
        task
    };
    Verdict { kind: "go", pause, left: left_of(task, cap), task, exceeded }
}

// ---- the machine

#[derive(Clone, Copy)]
enum Action {
    Write { inode: usize, page: usize, end: usize },
    Rest(i64),
}

struct Device {
    rate: i64,
    least: i64,
    most: i64,
    is_strict: bool,
    chunk: Option<i64>,
    is_cyclic: bool,
    queue: VecDeque<usize>,
}

#[derive(Clone, Copy, Default)]
struct Count {
    version: i64,
    count: i64,
}

struct Domain {
    group: Option<(i64, i64)>,
    limits: Limits,
    low: (i64, i64),
    sequence: i64,
    hard: i64,
    peak: i64,
    base: i64,
    events: Half,
    exact: i64,
    count: Count,
}

struct Context {
    device: usize,
    group: usize,
    expire: Option<i64>,
    estimate: Estimate,
    written: i64,
    parts: [Half; 2],
    exact: i64,
    most: i64,
    greatest_own: i64,
    count: Count,
}

struct Inode {
    context: usize,
    first: usize,
    end: usize,
    is_marked: bool,
}

struct Writer {
    context: usize,
    task: Numbers,
    left: i64,
    exceeded: bool,
    due: bool,
}

struct Task {
    cpu: usize,
    actions: VecDeque<Action>,
    pace: Option<(i64, i64)>,
    since: i64,
    writers: Vec<Writer>,
    last: Option<usize>,
    until: i64,
    ended: bool,
}

#[derive(Clone, Copy, PartialEq)]
enum Phase {
    Idle,
    Taken,
    Scanning,
    Flying,
    Finished,
}

struct Flusher {
    device: usize,
    cpu: usize,
    is_first: bool,
    is_ageing: bool,
    waiting: BTreeSet<(i64, usize)>,
    phase: Phase,
    until: i64,
    kept: bool,
    hard: i64,
    places: Vec<usize>,
    inode: usize,
    start: usize,
    passed: usize,
    quota: i64,
    noted: bool,
    batch: VecDeque<usize>,
    flown: i64,
}

#[derive(Clone, Copy)]
enum Job {
    Tasks,
    Flusher(usize),
}

/// What a CPU loaded of a domain: limits with their version, and the count.
#[derive(Clone, Copy, Default)]
struct Load {
    version: i64,
    limits: Limits,
    count: Count,
}

#[derive(Default)]
struct Cpu {
    log: Text,
    own_domains: Vec<i64>,
    own_contexts: Vec<i64>,
    held: Vec<(i64, Limits)>,
    tasks: Vec<usize>,
    jobs: Vec<Job>,
    next_job: usize,
    next_task: usize,
    turn: Option<Step>,
    leaks: i64,
    since_check: i64,
    made: i64,
    is_stopped: bool,
    // What a turn that is under way has found.
    sequence: i64,
    low: (i64, i64),
    loads: [Load; 2],
    began: i64,
    is_over: bool,
}

#[derive(Clone, Copy)]
enum Loading {
    First,
    Middle,
    Limits,
    Count,
}

#[derive(Clone, Copy)]
enum Change {
    Add,
    Fold,
    Clear,
}

/// The step to which a turn of a CPU has come.
#[derive(Clone, Copy)]
enum Step {
    Check { task: usize, side: usize, stage: Loading },
    CheckCount { task: usize },
    Test { flusher: usize, domain: usize, stage: Loading },
    Sample { flusher: usize, context: usize },
    Weigh { flusher: usize, context: usize },
    Write { task: usize },
    Settle { context: usize, change: i64, place: usize, stage: Change, after: After },
    Mark { task: usize, inode: usize },
    Unmark { flusher: usize, inode: usize },
    Look { flusher: usize },
    Claim { flusher: usize, seen: u64 },
    MarkAgain { flusher: usize },
    Complete { flusher: usize },
}

#[derive(Clone, Copy)]
enum After {
    Mark { task: usize, inode: usize },
    Landing { flusher: usize },
}

#[derive(Clone, Copy)]
struct TimerTurn {
    domain: usize,
    stage: usize,
    thresh: i64,
    background: i64,
    hard: i64,
}

enum Order {
    Cpu(usize, i64),
    Timer(i64),
    Tick(i64),
}

struct Machine {
    settings: Settings,
    cap: i64,
    halt: Option<i64>,
    avail: Vec<(i64, i64)>,
    devices: Vec<Device>,
    domains: Vec<Domain>,
    contexts: Vec<Context>,
    inodes: Vec<Inode>,
    tasks: Vec<Task>,
    flushers: Vec<Flusher>,
    cpus: Vec<Cpu>,
    orders: Vec<Order>,
    words: Vec<u64>,
    error: i64,
    domain_batch: i64,
    context_batch: i64,
    ratelimit_pages: i64,
    all_least: i64,
    clock: i64,
    steps: Text,
    many_steps: usize,
    most_steps: usize,
    entries: Text,
    forecast: Option<Forecast>,
    running: usize,
    open_flushers: usize,
    stopped: usize,
    is_spent: bool,
    fresh: i64,
    done: i64,
    timer_next: i64,
    timer_period: i64,
    timer_began: i64,
    timer_reading: i64,
    timer: Option<TimerTurn>,
}

// ---- text

/// A part of a journal, which a forecast doesn't keep.
#[derive(Default)]
struct Text {
    bytes: Vec<u8>,
    is_dropped: bool,
}

impl Text {
    fn dropped() -> Text {
        Text { bytes: Vec::new(), is_dropped: true }
    }

    fn push(&mut self, byte: u8) {
        if !self.is_dropped {
            self.bytes.push(byte);
        }
    }

    fn extend_from_slice(&mut self, bytes: &[u8]) {
        if !self.is_dropped {
            self.bytes.extend_from_slice(bytes);
        }
    }
}

fn put_number(out: &mut Text, number: i64) {
    if out.is_dropped {
        return;
    }
    let mut digits = [0; 20];
    let mut at = digits.len();
    let mut rest = number.unsigned_abs();
    loop {
        at -= 1;
        digits[at] = b'0' + (rest % 10) as u8;
        rest /= 10;
        if rest == 0 {
            break;
        }
    }
    if number < 0 {
        out.push(b'-');
    }
    out.extend_from_slice(&digits[at..]);
}

fn put(out: &mut Text, word: &str, numbers: &[i64]) {
    out.extend_from_slice(word.as_bytes());
    for &number in numbers {
        out.push(b' ');
        put_number(out, number);
    }
}

fn put_line(out: &mut Text, word: &str, numbers: &[i64]) {
    put(out, word, numbers);
    out.push(b'\n');
}

// ---- a forecast

/// What a task did in an interval.
#[derive(Clone, Copy, Default)]
struct Tally {
    pages: i64,
    checks: i64,
    pauses: i64,
    ticks: i64,
    longest: i64,
}

/// What an interval has come to so far.
struct Forecast {
    every: i64,
    has_steps: bool,
    most: Vec<i64>,
    dirtied: Vec<i64>,
    written: Vec<i64>,
    tasks: Vec<Tally>,
    out: Text,
}

impl Forecast {
    fn of(machine: &Machine, every: i64) -> Forecast {
        Forecast {
            every,
            has_steps: false,
            most: vec![0; machine.domains.len()],
            dirtied: vec![0; machine.contexts.len()],
            written: vec![0; machine.contexts.len()],
            tasks: vec![Tally::default(); machine.tasks.len()],
            out: Text::default(),
        }
    }

    fn step(&mut self, domains: &[Domain]) {
        if !self.has_steps {
            self.has_steps = true;
            self.most.iter_mut().for_each(|most| *most = 0);
        }
        for (most, it) in self.most.iter_mut().zip(domains) {
            *most = (*most).max(it.exact);
        }
    }

    fn write(&mut self, task: usize, context: usize, is_fresh: bool) {
        self.tasks[task].pages += 1;
        self.dirtied[context] += i64::from(is_fresh);
    }

    fn check(&mut self, task: usize, pause: i64) {
        let it = &mut self.tasks[task];
        it.checks += 1;
        it.pauses += i64::from(pause > 0);
        it.ticks += pause;
        it.longest = it.longest.max(pause);
    }
}

/// The output failed.
struct Fault;

// ---- reading a trace

fn read(text: &str) -> Option<Machine> {
    let mut settings = Settings { ratio: 20, background_ratio: 10, bytes: 0, background_bytes: 0 };
    let (mut cap, mut halt, mut cpus) = (1024, None, 0);
    let (mut avail, mut orders) = (Vec::new(), Vec::new());
    let mut devices: Vec<Device> = Vec::new();
    let mut domains = vec![domain_of(None)];
    let mut contexts: Vec<Context> = Vec::new();
    let mut inodes: Vec<Inode> = Vec::new();
    let mut tasks: Vec<Task> = Vec::new();
    let mut flushers: Vec<Flusher> = Vec::new();
    let mut pages = 0;
    for line in text.lines() {
        let (words, numbers): (Vec<&str>, Vec<&str>) = line.split(' ').partition(|field| field.parse::<i64>().is_err());
        let numbers: Vec<i64> = numbers.iter().map(|field| field.parse().unwrap()).collect();
        let at = |place: usize| numbers[place] as usize;
        match (words.join(" ").as_str(), numbers.len()) {
            ("cpus", 1) => cpus = at(0),
            ("cap", 1) => cap = numbers[0],
            ("set dirty_ratio", 1) => settings.ratio = numbers[0],
            ("set dirty_background_ratio", 1) => settings.background_ratio = numbers[0],
            ("set dirty_bytes", 1) => settings.bytes = numbers[0],
            ("set dirty_background_bytes", 1) => settings.background_bytes = numbers[0],
            ("avail", 2) => avail.push((numbers[0], numbers[1])),
            ("device", 4) => {
                let (rate, least, most) = (numbers[1], numbers[2], numbers[3]);
                devices.push(Device { rate, least, most, is_strict: false, chunk: None, is_cyclic: false, queue: VecDeque::new() });
            }
            ("strict", 1) => devices[at(0)].is_strict = true,
            ("chunk", 2) => devices[at(0)].chunk = Some(numbers[1]),
            ("cyclic", 1) => devices[at(0)].is_cyclic = true,
            ("cgroup", 3) => domains.push(domain_of(Some((numbers[1], numbers[2])))),
            ("context", 3) => contexts.push(Context {
                device: at(1),
                group: at(2),
                expire: None,
                estimate: Estimate::first(),
                written: 0,
                parts: [Half::default(); 2],
                exact: 0,
                most: 0,
                greatest_own: 0,
                count: Count::default(),
            }),
            ("expire", 2) => contexts[at(0)].expire = Some(numbers[1]),
            ("estimate", 4) => contexts[at(0)].estimate = Estimate::given(numbers[1], numbers[2], numbers[3]),
            ("inode", 3) => {
                inodes.push(Inode { context: at(1), first: pages, end: pages + at(2), is_marked: false });
                pages += at(2);
            }
            ("task", 2) => tasks.push(Task {
                cpu: at(1),
                actions: VecDeque::new(),
                pace: None,
                since: 0,
                writers: Vec::new(),
                last: None,
                until: 0,
                ended: false,
            }),
            ("pace", 3) => tasks[at(0)].pace = Some((numbers[1], numbers[2])),
            ("flusher", 3) => flushers.push(Flusher {
                device: at(1),
                cpu: at(2),
                is_first: flushers.iter().all(|other| other.device != at(1)),
                is_ageing: false,
                waiting: BTreeSet::new(),
                phase: Phase::Idle,
                until: 0,
                kept: false,
                hard: 0,
                places: Vec::new(),
                inode: 0,
                start: 0,
                passed: 0,
                quota: 0,
                noted: false,
                batch: VecDeque::new(),
                flown: 0,
            }),
            ("write", 4) => {
                let Inode { context, first, .. } = inodes[at(1)];
                let page = first + at(2);
                let task = &mut tasks[at(0)];
                task.actions.push_back(Action::Write { inode: at(1), page, end: page + at(3) });
                if task.writers.iter().all(|writer| writer.context != context) {
                    let numbers = Numbers { dirtied: 0, allowance: FIRST_ALLOWANCE, ended: 0 };
                    task.writers.push(Writer { context, task: numbers, left: 0, exceeded: false, due: false });
                }
            }
            ("rest", 2) => tasks[at(0)].actions.push_back(Action::Rest(numbers[1])),
            ("order", 2) => orders.push(Order::Cpu(at(0), numbers[1])),
            ("order timer", 1) => orders.push(Order::Timer(numbers[0])),
            ("tick", 1) => orders.push(Order::Tick(numbers[0])),
            ("halt", 1) => halt = Some(numbers[0]),
            _ => return None,
        }
    }
    for flusher in &mut flushers {
        flusher.is_ageing = contexts.iter().any(|it| it.device == flusher.device && it.expire.is_some());
        flusher.places = vec![0; inodes.len()];
    }
    let running = tasks.iter().filter(|task| !task.actions.is_empty()).count();
    let all_least = devices.iter().map(|device| device.least).sum();
    let many = cpus as i64;
    let context_batch = 8 * (1 + log2(many.max(1)));
    let mut machine = Machine {
        settings,
        cap,
        halt,
        avail,
        devices,
        domains,
        contexts,
        inodes,
        tasks,
        cpus: (0..cpus).map(|_| Cpu::default()).collect(),
        open_flushers: flushers.len(),
        flushers,
        orders,
        words: vec![0; pages.div_ceil(32)],
        error: many * context_batch,
        domain_batch: (2 * many).max(32),
        context_batch,
        ratelimit_pages: 0,
        all_least,
        clock: 1,
        steps: Text::default(),
        many_steps: 0,
        most_steps: MOST_STEPS,
        entries: Text::default(),
        forecast: None,
        running,
        stopped: 0,
        is_spent: false,
        fresh: 0,
        done: 0,
        timer_next: 1 + TIMER_REST,
        timer_period: 1 + PERIOD,
        timer_began: 0,
        timer_reading: 0,
        timer: None,
    };
    machine.open();
    Some(machine)
}

fn domain_of(group: Option<(i64, i64)>) -> Domain {
    Domain {
        group,
        limits: Limits::default(),
        low: (0, 0),
        sequence: 0,
        hard: 0,
        peak: 0,
        base: 0,
        events: Half { period: 0, events: 1 },
        exact: 0,
        count: Count::default(),
    }
}

impl Machine {
    fn open(&mut self) {
        let many = self.cpus.len() as i64;
        for number in 0..self.domains.len() {
            let (thresh, background) = self.limits_of(number, 1, 0, 0);
            let is_inside = |context: usize| number == 0 || self.contexts[context].group == number;
            let contexts = (0..self.contexts.len()).filter(|&context| is_inside(context)).count() as i64;
            let writers = self.tasks.iter().flat_map(|task| &task.writers).filter(|writer| is_inside(writer.context)).count() as i64;
            let base = many * self.domain_batch + writers * self.cap + 2 * self.error * contexts;
            let it = &mut self.domains[number];
            it.limits = Limits { thresh, background, hard: thresh };
            (it.low, it.hard, it.peak, it.base) = ((thresh, background), thresh, thresh, base);
            put_line(&mut self.entries, "limits", &[number as i64, 1, thresh, background, thresh]);
        }
        self.ratelimit_pages = (self.domains[0].limits.thresh / (32 * many)).max(16);
        for task in &mut self.tasks {
            task.ended = task.actions.is_empty();
            for writer in &mut task.writers {
                writer.left = FIRST_ALLOWANCE.min(self.cap);
            }
        }
        for flusher in &mut self.flushers {
            flusher.hard = self.domains[0].limits.hard;
        }
        for (number, cpu) in self.cpus.iter_mut().enumerate() {
            cpu.own_domains = vec![0; self.domains.len()];
            cpu.own_contexts = vec![0; self.contexts.len()];
            cpu.held = self.domains.iter().map(|domain| (0, domain.limits)).collect();
            let (tasks, flushers) = (&self.tasks, &self.flushers);
            cpu.tasks = (0..tasks.len()).filter(|&task| tasks[task].cpu == number).collect();
            cpu.jobs = if cpu.tasks.is_empty() { Vec::new() } else { vec![Job::Tasks] };
            cpu.jobs.extend((0..flushers.len()).filter(|&it| flushers[it].cpu == number).map(Job::Flusher));
        }
    }

    fn limits_of(&self, domain: usize, moment: i64, reading: i64, all: i64) -> (i64, i64) {
        let avail = self.avail.iter().rfind(|line| line.0 <= moment).map_or(0, |line| line.1);
        match self.domains[domain].group {
            None => thresholds(&self.settings, avail, None),
            Some((file_pages, headroom)) => {
                thresholds(&self.settings, cgroup_avail(file_pages, headroom, reading, avail, all), Some(avail))
            }
        }
    }

    // ---- steps

    fn tell(&mut self, who: usize, kind: &str) {
        self.many_steps += 1;
        if let Some(forecast) = &mut self.forecast {
            forecast.step(&self.domains);
            return;
        }
        put(&mut self.steps, "step", &[self.many_steps as i64]);
        if who == self.cpus.len() {
            self.steps.extend_from_slice(b" timer ");
        } else {
            put(&mut self.steps, "", &[who as i64]);
            self.steps.push(b' ');
        }
        self.steps.extend_from_slice(kind.as_bytes());
        for it in &self.domains {
            put(&mut self.steps, "", &[it.exact, it.peak + it.base]);
        }
        self.steps.push(b'\n');
    }

    fn change(&mut self, context: usize, by: i64) {
        let it = &mut self.contexts[context];
        it.exact += by;
        it.most = it.most.max(it.exact);
        self.domains[0].exact += by;
        if it.group != 0 {
            self.domains[it.group].exact += by;
        }
    }

    fn bits(&self, page: usize) -> u64 {
        self.words[page / 32] >> (2 * (page % 32)) & 3
    }

    /// Exchanges bits of a page: 1 is dirty, 2 under writeback.
    fn flip(&mut self, page: usize, bits: u64) {
        self.words[page / 32] ^= bits << (2 * (page % 32));
    }

    fn mark(&mut self, inode: usize) {
        let it = &mut self.inodes[inode];
        if !it.is_marked {
            it.is_marked = true;
            let device = self.contexts[it.context].device;
            self.devices[device].queue.push_back(inode);
        }
    }

    /// One of the four steps of a load: what was loaded, after the last one.
    fn load(&mut self, cpu: usize, domain: usize, stage: Loading) -> Result<Load, Loading> {
        let it = &self.domains[domain];
        let at = &mut self.cpus[cpu];
        let (kind, next) = match stage {
            Loading::First => {
                at.sequence = it.sequence;
                ("first", Loading::Middle)
            }
            Loading::Middle => {
                at.low = it.low;
                ("middle", Loading::Limits)
            }
            Loading::Limits => {
                if it.sequence == at.sequence && it.sequence % 2 == 0 {
                    at.held[domain] = (it.sequence / 2, Limits { thresh: at.low.0, background: at.low.1, hard: it.hard });
                }
                ("limits", Loading::Count)
            }
            Loading::Count => {
                let (version, limits) = at.held[domain];
                let load = Load { version, limits, count: it.count };
                self.tell(cpu, "count");
                return Ok(load);
            }
        };
        self.tell(cpu, kind);
        Err(next)
    }

    /// The domain's period, and the two numbers of the context's fraction.
    fn fraction(&mut self, context: usize, domain: usize) -> (i64, i64, i64) {
        let whole = self.domains[domain].events;
        let part = &mut self.contexts[context].parts[usize::from(domain != 0)];
        part.age(whole.period);
        let (num, mut den) = (part.events, whole.events);
        if den <= num {
            den = num.max(1);
        }
        (whole.period, num, den)
    }

    /// What the law reads of a domain, with the fraction that it read.
    fn read(&mut self, context: usize, domain: usize, limits: Limits, count: i64) -> (Read1, (i64, i64, i64)) {
        let share = self.fraction(context, domain);
        let device = &self.devices[self.contexts[context].device];
        let rest = limits.thresh * (100 - self.all_least) / 100;
        let own = (i128::from(rest) * i128::from(share.1) / i128::from(share.2)) as i64 + limits.thresh * device.least / 100;
        (Read1 { limits, dirty: count.max(0), own: own.min(limits.thresh * device.most / 100) }, share)
    }

    // ---- turns

    /// Makes the step to which the turn of a CPU has come: the next one of the turn.
    fn make(&mut self, cpu: usize, step: Step) -> Option<Step> {
        match step {
            Step::Check { task, side, stage } => self.check_load(cpu, task, side, stage),
            Step::CheckCount { task } => self.check(cpu, task),
            Step::Test { flusher, domain, stage } => self.test(cpu, flusher, domain, stage),
            Step::Sample { flusher, context } => self.sample(cpu, flusher, context),
            Step::Weigh { flusher, context } => self.weigh(cpu, flusher, context),
            Step::Write { task } => self.write(cpu, task),
            Step::Settle { context, change, place, stage, after } => self.settle(cpu, context, change, place, stage, after),
            Step::Mark { task, inode } => {
                self.mark(inode);
                self.tell(cpu, "mark");
                self.end_turn(cpu, task)
            }
            Step::Unmark { flusher, inode } => self.unmark(cpu, flusher, inode),
            Step::Look { flusher } => self.look(cpu, flusher),
            Step::Claim { flusher, seen } => self.claim(cpu, flusher, seen),
            Step::MarkAgain { flusher } => {
                self.mark(self.flushers[flusher].inode);
                self.tell(cpu, "mark");
                self.close(cpu, flusher)
            }
            Step::Complete { flusher } => self.complete(cpu, flusher),
        }
    }

    fn begin_task(&mut self, cpu: usize, number: usize) -> Option<Step> {
        let task = &mut self.tasks[number];
        if task.last.is_some_and(|last| task.writers[last].due) {
            return Some(Step::Check { task: number, side: 0, stage: Loading::First });
        }
        match task.actions.front() {
            Some(&Action::Rest(ticks)) => {
                task.actions.pop_front();
                task.until = self.clock + ticks;
                self.end_turn(cpu, number)
            }
            Some(_) => match task.pace {
                Some((pages, ticks)) if pages <= task.since => {
                    (task.since, task.until) = (0, self.clock + ticks);
                    self.end_turn(cpu, number)
                }
                _ => Some(Step::Write { task: number }),
            },
            None => self.end_turn(cpu, number),
        }
    }

    fn end_turn(&mut self, cpu: usize, number: usize) -> Option<Step> {
        let task = &mut self.tasks[number];
        if task.actions.is_empty() && !task.last.is_some_and(|last| task.writers[last].due) {
            task.ended = true;
            self.running -= 1;
            self.cpus[cpu].leaks += task.writers.iter().map(|writer| writer.task.dirtied).sum::<i64>();
        }
        None
    }

    fn check_load(&mut self, cpu: usize, task: usize, side: usize, stage: Loading) -> Option<Step> {
        let it = &self.tasks[task];
        let group = self.contexts[it.writers[it.last?].context].group;
        match self.load(cpu, if side == 0 { 0 } else { group }, stage) {
            Err(stage) => Some(Step::Check { task, side, stage }),
            Ok(load) => {
                self.cpus[cpu].loads[side] = load;
                if side == 0 && group != 0 {
                    return Some(Step::Check { task, side: 1, stage: Loading::First });
                }
                Some(Step::CheckCount { task })
            }
        }
    }

    fn check(&mut self, cpu: usize, number: usize) -> Option<Step> {
        let last = self.tasks[number].last?;
        let context = self.tasks[number].writers[last].context;
        let Context { device, group, estimate, count, .. } = self.contexts[context];
        self.tell(cpu, "count");
        let mut reads = [None; 2];
        for side in 0..=usize::from(group != 0) {
            let domain = if side == 0 { 0 } else { group };
            let Load { version, limits, count } = self.cpus[cpu].loads[side];
            let (read, share) = self.read(context, domain, limits, count.count);
            self.contexts[context].greatest_own = self.contexts[context].greatest_own.max(read.own);
            let numbers = [domain as i64, version, limits.thresh, limits.background, limits.hard, count.version, count.count];
            put(&mut self.cpus[cpu].log, "read", &numbers);
            put_line(&mut self.cpus[cpu].log, "", &[share.0, share.1, share.2]);
            reads[side] = Some(read);
        }
        let first = reads[0]?;
        let both = [first, reads[1].unwrap_or(first)];
        let is_strict = self.devices[device].is_strict;
        let writer = &mut self.tasks[number].writers[last];
        let pages = count.count.max(0);
        let it = decide(is_strict, &both[..=usize::from(group != 0)], pages, &estimate, writer.task, self.clock, self.error, self.cap);
        (writer.task, writer.left, writer.exceeded, writer.due) = (it.task, it.left, it.exceeded, it.kind == "wait");
        if let Some(forecast) = &mut self.forecast {
            forecast.check(number, it.pause);
        }
        let log = &mut self.cpus[cpu].log;
        put_line(log, "count", &[context as i64, count.version, count.count]);
        put(log, "check", &[number as i64, context as i64, self.clock, estimate.version]);
        log.push(b' ');
        put_line(log, it.kind, &[it.pause, it.left, it.task.dirtied, it.task.allowance, it.task.ended]);
        if it.pause > 0 {
            self.tasks[number].until = self.clock + it.pause;
        }
        self.end_turn(cpu, number)
    }

    fn write(&mut self, cpu: usize, number: usize) -> Option<Step> {
        let task = &mut self.tasks[number];
        let Some(Action::Write { inode, page, end }) = task.actions.front_mut() else {
            return None;
        };
        let (inode, written) = (*inode, *page);
        task.since += 1;
        *page += 1;
        if *page == *end {
            task.actions.pop_front();
        }
        let is_fresh = self.bits(written) & 1 == 0;
        let context = self.inodes[inode].context;
        if let Some(forecast) = &mut self.forecast {
            forecast.write(number, context, is_fresh);
        }
        let log = &mut self.cpus[cpu].log;
        put(log, "write", &[number as i64, written as i64]);
        log.extend_from_slice(if is_fresh { b" fresh\n" } else { b" already\n" });
        if !is_fresh {
            self.tell(cpu, "dirty");
            return self.end_turn(cpu, number);
        }
        self.flip(written, 1);
        self.fresh += 1;
        self.change(context, 1);
        self.page_done(cpu, number, context);
        self.tell(cpu, "dirty");
        let after = After::Mark { task: number, inode };
        Some(Step::Settle { context, change: 1, place: 0, stage: Change::Add, after })
    }

    fn page_done(&mut self, cpu: usize, number: usize, context: usize) {
        let task = &mut self.tasks[number];
        task.last = task.writers.iter().position(|writer| writer.context == context);
        let Some(last) = task.last else {
            return;
        };
        let (writer, cpu) = (&mut task.writers[last], &mut self.cpus[cpu]);
        writer.left -= 1;
        writer.task.dirtied += 1;
        cpu.since_check += 1;
        let mut limit = if writer.exceeded { writer.task.allowance.min(8) } else { writer.task.allowance };
        if writer.task.dirtied >= limit {
            cpu.since_check = 0;
        } else if cpu.since_check >= self.ratelimit_pages {
            (cpu.since_check, limit) = (0, 0);
        }
        if writer.task.dirtied < limit {
            let moved = cpu.leaks.min(limit - writer.task.dirtied);
            writer.task.dirtied += moved;
            cpu.leaks -= moved;
        }
        writer.due = writer.task.dirtied >= limit || writer.left == 0;
    }

    fn settle(&mut self, cpu: usize, context: usize, change: i64, place: usize, stage: Change, after: After) -> Option<Step> {
        let group = self.contexts[context].group;
        let (number, batch) = match place {
            0 => (context, self.context_batch),
            1 => (0, self.domain_batch),
            _ => (group, self.domain_batch),
        };
        let at = &mut self.cpus[cpu];
        let own = if place == 0 { &mut at.own_contexts[number] } else { &mut at.own_domains[number] };
        match stage {
            Change::Add => {
                *own += change;
                let is_full = own.abs() >= batch;
                self.tell(cpu, "add");
                if is_full {
                    return Some(Step::Settle { context, change, place, stage: Change::Fold, after });
                }
            }
            Change::Fold => {
                let count = if place == 0 { &mut self.contexts[number].count } else { &mut self.domains[number].count };
                count.version += 1;
                count.count += *own;
                let (version, own) = (count.version, *own);
                at.log.extend_from_slice(if place == 0 { b"fold c" } else { b"fold d" });
                put_number(&mut at.log, number as i64);
                put_line(&mut at.log, "", &[version, own]);
                self.tell(cpu, "fold");
                return Some(Step::Settle { context, change, place, stage: Change::Clear, after });
            }
            Change::Clear => {
                *own = 0;
                self.tell(cpu, "clear");
            }
        }
        if place == 0 || place == 1 && group != 0 {
            return Some(Step::Settle { context, change, place: place + 1, stage: Change::Add, after });
        }
        match after {
            After::Mark { task, inode } => Some(Step::Mark { task, inode }),
            After::Landing { flusher } => self.land(cpu, flusher),
        }
    }

    fn begin_flusher(&mut self, flusher: usize) -> Option<Step> {
        match self.flushers[flusher].phase {
            Phase::Idle => self.begin_idle(flusher),
            Phase::Scanning => Some(Step::Look { flusher }),
            _ => Some(Step::Complete { flusher }),
        }
    }

    fn begin_idle(&mut self, flusher: usize) -> Option<Step> {
        let cpu = self.flushers[flusher].cpu;
        if self.running > 0 {
            (self.cpus[cpu].began, self.cpus[cpu].is_over) = (self.clock, false);
            return Some(Step::Test { flusher, domain: 0, stage: Loading::First });
        }
        let device = self.flushers[flusher].device;
        let taken = self.first(flusher).or_else(|| self.devices[device].queue.pop_front());
        match taken {
            Some(inode) => self.take(flusher, inode),
            None => {
                self.flushers[flusher].phase = Phase::Finished;
                self.open_flushers -= 1;
                None
            }
        }
    }

    fn test(&mut self, cpu: usize, flusher: usize, domain: usize, stage: Loading) -> Option<Step> {
        match self.load(cpu, domain, stage) {
            Err(stage) => Some(Step::Test { flusher, domain, stage }),
            Ok(load) => {
                self.cpus[cpu].is_over |= load.count.count.max(0) > load.limits.background;
                if domain == 0 {
                    self.flushers[flusher].hard = load.limits.hard;
                    self.cpus[cpu].loads[0] = load;
                }
                if domain + 1 < self.domains.len() {
                    return Some(Step::Test { flusher, domain: domain + 1, stage: Loading::First });
                }
                self.samples(cpu, flusher, 0)
            }
        }
    }

    /// The estimates of contexts from one on whose time has come, and then what the device asks.
    fn samples(&mut self, cpu: usize, flusher: usize, from: usize) -> Option<Step> {
        let it = &self.flushers[flusher];
        let is_old = |at: &Context| at.device == it.device && at.estimate.at + ESTIMATE_AGE <= self.cpus[cpu].began;
        if it.is_first {
            if let Some(context) = (from..self.contexts.len()).find(|&context| is_old(&self.contexts[context])) {
                return Some(Step::Sample { flusher, context });
            }
        }
        if self.devices[it.device].is_strict {
            return self.weights(cpu, flusher, 0);
        }
        self.decide_idle(cpu, flusher)
    }

    fn sample(&mut self, cpu: usize, flusher: usize, context: usize) -> Option<Step> {
        let dirty = self.contexts[context].count.count.max(0);
        self.tell(cpu, "count");
        let Load { limits, count, .. } = self.cpus[cpu].loads[0];
        let (read, _) = self.read(context, 0, limits, count.count);
        let at = &mut self.contexts[context];
        let ratio = read.ratio(dirty, at.estimate.average);
        let began = self.cpus[cpu].began;
        at.estimate.update(began, at.written, at.written + dirty, ratio, read.dirty < limits.setpoint());
        let it = at.estimate;
        let numbers =
            [context as i64, it.version, it.bandwidth, it.average, it.ratelimit, it.balanced, it.written, it.dirtied, it.at];
        put_line(&mut self.cpus[cpu].log, "est", &numbers);
        self.samples(cpu, flusher, context + 1)
    }

    fn weights(&mut self, cpu: usize, flusher: usize, from: usize) -> Option<Step> {
        let device = self.flushers[flusher].device;
        match (from..self.contexts.len()).find(|&context| self.contexts[context].device == device) {
            Some(context) => Some(Step::Weigh { flusher, context }),
            None => self.decide_idle(cpu, flusher),
        }
    }

    fn weigh(&mut self, cpu: usize, flusher: usize, context: usize) -> Option<Step> {
        let Context { group, count, .. } = self.contexts[context];
        self.tell(cpu, "count");
        for domain in [0, group] {
            let (read, _) = self.read(context, domain, self.cpus[cpu].held[domain].1, 0);
            self.cpus[cpu].is_over |= count.count.max(0) > read.own_background();
        }
        self.weights(cpu, flusher, context + 1)
    }

    /// What an idle flusher does after its tests.
    fn decide_idle(&mut self, cpu: usize, flusher: usize) -> Option<Step> {
        let Cpu { began, is_over, .. } = self.cpus[cpu];
        let Flusher { device, is_ageing, .. } = self.flushers[flusher];
        let taken = if is_ageing {
            self.notice(cpu, flusher, began);
            self.due(cpu, flusher, began).or_else(|| if is_over { self.first(flusher) } else { None })
        } else if is_over {
            self.devices[device].queue.pop_front()
        } else {
            None
        };
        match taken {
            Some(inode) => self.take(flusher, inode),
            None => {
                self.rest(flusher, began + FLUSHER_REST, false);
                None
            }
        }
    }

    fn notice(&mut self, cpu: usize, flusher: usize, now: i64) {
        let it = &mut self.flushers[flusher];
        for _ in 0..MOST_NOTICED {
            let Some(inode) = self.devices[it.device].queue.pop_front() else {
                return;
            };
            let due = now + 10 * self.contexts[self.inodes[inode].context].expire.unwrap_or(3000);
            it.waiting.insert((due, inode));
            put_line(&mut self.cpus[cpu].log, "notice", &[flusher as i64, inode as i64, now]);
        }
    }

    fn due(&mut self, cpu: usize, flusher: usize, now: i64) -> Option<usize> {
        let waiting = &mut self.flushers[flusher].waiting;
        if waiting.first()?.0 > now {
            return None;
        }
        let (due, inode) = waiting.pop_first()?;
        put_line(&mut self.cpus[cpu].log, "age", &[flusher as i64, inode as i64, due, now]);
        Some(inode)
    }

    fn first(&mut self, flusher: usize) -> Option<usize> {
        let it = &mut self.flushers[flusher];
        let (_, inode) = it.waiting.pop_first()?;
        put_line(&mut self.cpus[it.cpu].log, "take", &[flusher as i64, inode as i64]);
        Some(inode)
    }

    fn take(&mut self, flusher: usize, inode: usize) -> Option<Step> {
        self.flushers[flusher].phase = Phase::Taken;
        Some(Step::Unmark { flusher, inode })
    }

    fn rest(&mut self, flusher: usize, until: i64, kept: bool) {
        let it = &mut self.flushers[flusher];
        (it.phase, it.until, it.kept) = (Phase::Idle, until, kept);
    }

    fn unmark(&mut self, cpu: usize, flusher: usize, inode: usize) -> Option<Step> {
        let at = &mut self.inodes[inode];
        at.is_marked = false;
        let it = &mut self.flushers[flusher];
        it.phase = Phase::Scanning;
        let device = &self.devices[it.device];
        (it.inode, it.start, it.passed, it.noted) = (inode, if device.is_cyclic { it.places[inode] } else { 0 }, 0, false);
        let chunk = chunk_of(self.contexts[at.context].estimate.average, it.hard);
        it.quota = device.chunk.map_or(chunk, |most| most.min(chunk));
        it.batch.clear();
        self.tell(cpu, "unmark");
        None
    }

    /// The page to which a scan comes next.
    fn page_at(&self, flusher: usize) -> usize {
        let it = &self.flushers[flusher];
        let Inode { first, end, .. } = self.inodes[it.inode];
        first + (it.start + it.passed) % (end - first)
    }

    fn look(&mut self, cpu: usize, flusher: usize) -> Option<Step> {
        let page = self.page_at(flusher);
        let bits = self.bits(page);
        self.tell(cpu, "look");
        match bits {
            1 => Some(Step::Claim { flusher, seen: self.words[page / 32] }),
            bits => self.pass(cpu, flusher, bits == 3),
        }
    }

    fn claim(&mut self, cpu: usize, flusher: usize, seen: u64) -> Option<Step> {
        let page = self.page_at(flusher);
        if self.words[page / 32] != seen {
            self.tell(cpu, "claim");
            return None;
        }
        self.flip(page, 3);
        put_line(&mut self.cpus[cpu].log, "claim", &[flusher as i64, page as i64]);
        self.tell(cpu, "claim");
        self.flushers[flusher].batch.push_back(page);
        self.pass(cpu, flusher, false)
    }

    fn pass(&mut self, cpu: usize, flusher: usize, is_noted: bool) -> Option<Step> {
        let it = &mut self.flushers[flusher];
        it.noted |= is_noted;
        it.passed += 1;
        let Inode { first, end, .. } = self.inodes[it.inode];
        let has_more = it.passed < end - first;
        if has_more && (it.batch.len() as i64) < it.quota {
            return None;
        }
        it.places[it.inode] = (it.start + it.passed) % (end - first);
        if has_more || it.noted {
            return Some(Step::MarkAgain { flusher });
        }
        self.close(cpu, flusher)
    }

    fn close(&mut self, cpu: usize, flusher: usize) -> Option<Step> {
        let it = &mut self.flushers[flusher];
        let pages = it.batch.len() as i64;
        if pages == 0 {
            let noted = it.noted;
            self.rest(flusher, if noted { self.clock + FLUSHER_REST } else { 0 }, noted);
            return None;
        }
        let until = self.clock + ceil_div(pages * 1000, self.devices[it.device].rate);
        (it.phase, it.until, it.flown) = (Phase::Flying, until, pages);
        put_line(&mut self.cpus[cpu].log, "batch", &[flusher as i64, pages, self.clock, until]);
        None
    }

    fn complete(&mut self, cpu: usize, flusher: usize) -> Option<Step> {
        let it = &mut self.flushers[flusher];
        let page = it.batch.pop_front()?;
        let context = self.inodes[it.inode].context;
        self.flip(page, 2);
        put_line(&mut self.cpus[cpu].log, "done", &[flusher as i64, page as i64]);
        self.done += 1;
        if let Some(forecast) = &mut self.forecast {
            forecast.written[context] += 1;
        }
        self.change(context, -1);
        self.tell(cpu, "complete");
        Some(Step::Settle { context, change: -1, place: 0, stage: Change::Add, after: After::Landing { flusher } })
    }

    fn land(&mut self, cpu: usize, flusher: usize) -> Option<Step> {
        let it = &self.flushers[flusher];
        if !it.batch.is_empty() {
            return None;
        }
        let (context, flown) = (self.inodes[it.inode].context, it.flown);
        self.contexts[context].written += flown;
        let Context { device, group, .. } = self.contexts[context];
        for side in 0..=usize::from(group != 0) {
            let domain = if side == 0 { 0 } else { group };
            let (_, num, den) = self.fraction(context, domain);
            if den * (1024 * self.devices[device].most / 100) >= num * 1024 {
                self.contexts[context].parts[side].events += flown;
                self.domains[domain].events.events += flown;
                put_line(&mut self.cpus[cpu].log, "share", &[domain as i64, context as i64, flown]);
            }
        }
        self.rest(flusher, 0, false);
        None
    }

    /// Makes the step to which the timer's turn has come.
    fn make_timer(&mut self, mut turn: TimerTurn) -> Option<TimerTurn> {
        let who = self.cpus.len();
        let number = turn.domain;
        match turn.stage {
            0 => {
                let reading = self.domains[number].count.count.max(0);
                if number == 0 {
                    self.timer_reading = reading;
                }
                (turn.thresh, turn.background) = self.limits_of(number, self.timer_began, reading, self.timer_reading);
                turn.hard = turn.thresh.max(follow(self.domains[number].limits.hard, turn.thresh, reading));
                self.tell(who, "count");
            }
            1 => {
                self.domains[number].peak = self.domains[number].peak.max(turn.hard);
                self.tell(who, "peak");
            }
            2 => {
                self.domains[number].sequence += 1;
                self.tell(who, "unseal");
            }
            3 => {
                self.domains[number].low = (turn.thresh, turn.background);
                self.tell(who, "thresh");
            }
            _ => {
                let TimerTurn { thresh, background, hard, .. } = turn;
                let it = &mut self.domains[number];
                it.sequence += 1;
                it.hard = hard;
                it.limits = Limits { thresh, background, hard };
                put_line(&mut self.entries, "limits", &[number as i64, self.timer_began, thresh, background, hard]);
                self.tell(who, "publish");
                if number + 1 == self.domains.len() {
                    self.end_timer_turn();
                    return None;
                }
                return Some(TimerTurn { domain: number + 1, stage: 0, ..turn });
            }
        }
        turn.stage += 1;
        Some(turn)
    }

    fn end_timer_turn(&mut self) {
        if self.timer_period <= self.timer_began {
            let k = (self.timer_began - self.timer_period) / PERIOD + 1;
            for (number, it) in self.domains.iter_mut().enumerate() {
                if it.events.new_period(k) {
                    put_line(&mut self.entries, "period", &[number as i64, k]);
                }
            }
            self.timer_period += k * PERIOD;
        }
        self.timer_next = self.timer_began + TIMER_REST;
    }

    // ---- the order of turns

    fn is_ready(&self, flusher: usize) -> bool {
        let it = &self.flushers[flusher];
        match it.phase {
            Phase::Idle => it.until <= self.clock || self.running == 0 && !it.kept,
            Phase::Scanning => true,
            Phase::Flying => it.until <= self.clock,
            Phase::Taken | Phase::Finished => false,
        }
    }

    /// The task that takes the next turn of a CPU's writers.
    fn ready_task(&mut self, cpu: usize) -> Option<usize> {
        let it = &mut self.cpus[cpu];
        let many = it.tasks.len();
        for at in 0..many {
            let place = (it.next_task + at) % many;
            let task = &self.tasks[it.tasks[place]];
            if !task.ended && task.until <= self.clock {
                it.next_task = (place + 1) % many;
                return Some(it.tasks[place]);
            }
        }
        None
    }

    /// Begins a turn of a CPU, up to its first step. False where it has none.
    fn start(&mut self, cpu: usize) -> bool {
        let many = self.cpus[cpu].jobs.len();
        for at in 0..many {
            let place = (self.cpus[cpu].next_job + at) % many;
            let turn = match self.cpus[cpu].jobs[place] {
                Job::Tasks => match self.ready_task(cpu) {
                    Some(task) => self.begin_task(cpu, task),
                    None => continue,
                },
                Job::Flusher(flusher) if self.is_ready(flusher) => self.begin_flusher(flusher),
                Job::Flusher(_) => continue,
            };
            self.cpus[cpu].next_job = (place + 1) % many;
            self.cpus[cpu].turn = turn;
            return true;
        }
        false
    }

    fn start_timer(&mut self) -> bool {
        if self.timer_next > self.clock {
            return false;
        }
        self.timer_began = self.clock;
        self.timer = Some(TimerTurn { domain: 0, stage: 0, thresh: 0, background: 0, hard: 0 });
        true
    }

    fn can_move(&self, who: usize) -> bool {
        if who == self.cpus.len() { self.running > 0 } else { !self.cpus[who].is_stopped }
    }

    fn has_turn(&self, who: usize) -> bool {
        if who == self.cpus.len() { self.timer.is_some() } else { self.cpus[who].turn.is_some() }
    }

    fn begin(&mut self, who: usize) -> bool {
        if who == self.cpus.len() { self.start_timer() } else { self.start(who) }
    }

    /// Makes the step to which a turn has come, unless its CPU's halt line stops it, or no further one may be made.
    fn make_step(&mut self, who: usize) {
        let is_cpu = who < self.cpus.len();
        if is_cpu && self.halt.is_some_and(|halt| self.cpus[who].made >= halt) {
            self.cpus[who].is_stopped = true;
            self.stopped += 1;
            let open = |it: &Flusher| it.cpu == who && it.phase != Phase::Finished;
            self.open_flushers -= self.flushers.iter().filter(|it| open(it)).count();
        } else if self.many_steps == self.most_steps {
            self.is_spent = true;
        } else if is_cpu {
            self.cpus[who].made += 1;
            if let Some(step) = self.cpus[who].turn {
                self.cpus[who].turn = self.make(who, step);
            }
        } else if let Some(turn) = self.timer {
            self.timer = self.make_timer(turn);
        }
    }

    fn is_over(&self) -> bool {
        self.is_spent || self.stopped == self.cpus.len() || self.running == 0 && self.open_flushers == 0
    }

    fn stretch(&mut self, who: usize, wanted: i64) {
        let mut made = 0;
        while made < wanted && !self.is_over() && self.can_move(who) {
            if self.has_turn(who) {
                self.make_step(who);
                made += 1;
            } else if !self.begin(who) {
                return;
            }
        }
    }

    fn whole_turn(&mut self, who: usize) -> bool {
        if !self.can_move(who) || !self.has_turn(who) && !self.begin(who) {
            return false;
        }
        while self.has_turn(who) && !self.is_over() && self.can_move(who) {
            self.make_step(who);
        }
        true
    }

    /// The next moment at which a rest, a flight or the timer's wait ends.
    fn next_moment(&self) -> Option<i64> {
        let tasks = self.tasks.iter().filter(|task| !task.ended).map(|task| task.until);
        let flushers = self.flushers.iter().filter(|it| matches!(it.phase, Phase::Idle | Phase::Flying)).map(|it| it.until);
        let timer = (self.running > 0).then_some(self.timer_next);
        tasks.chain(flushers).chain(timer).filter(|&moment| moment > self.clock).min()
    }

    fn run(&mut self) -> Result<(), Fault> {
        for order in std::mem::take(&mut self.orders) {
            match order {
                Order::Cpu(cpu, steps) => self.stretch(cpu, steps),
                Order::Timer(steps) => self.stretch(self.cpus.len(), steps),
                Order::Tick(ticks) => self.come(self.clock + ticks)?,
            }
        }
        while !self.is_over() {
            let mut has_moved = false;
            for who in 0..=self.cpus.len() {
                has_moved |= !self.is_over() && self.whole_turn(who);
            }
            if !has_moved {
                let Some(moment) = self.next_moment() else {
                    break;
                };
                self.come(moment)?;
            }
        }
        self.tell_interval()
    }

    /// The clock comes to a later moment, and may leave the interval.
    fn come(&mut self, moment: i64) -> Result<(), Fault> {
        if self.forecast.as_ref().is_some_and(|it| moment / it.every > self.clock / it.every) {
            self.tell_interval()?;
        }
        self.clock = moment;
        Ok(())
    }

    /// Goes on by intervals of so many ticks, and keeps no journal.
    fn begin_forecast(&mut self, every: i64) -> Result<(), Fault> {
        (self.steps, self.entries) = (Text::dropped(), Text::dropped());
        self.cpus.iter_mut().for_each(|cpu| cpu.log = Text::dropped());
        self.most_steps = MOST_FORECAST_STEPS;
        let mut forecast = Forecast::of(self, every);
        put_line(&mut forecast.out, "forecast", &[every]);
        send(&mut forecast.out)?;
        self.forecast = Some(forecast);
        Ok(())
    }

    /// Tells the interval that the clock is in, where a step was made in it.
    fn tell_interval(&mut self) -> Result<(), Fault> {
        let Some(told) = &mut self.forecast else {
            return Ok(());
        };
        if !told.has_steps {
            return Ok(());
        }
        put_line(&mut told.out, "from", &[self.clock / told.every]);
        for (number, it) in self.domains.iter().enumerate() {
            put_line(&mut told.out, "domain", &[number as i64, it.exact, told.most[number], it.limits.hard, it.peak + it.base]);
        }
        for (number, it) in self.contexts.iter().enumerate() {
            let Estimate { bandwidth, average, ratelimit, .. } = it.estimate;
            put_line(&mut told.out, "context", &[number as i64, told.dirtied[number], told.written[number], bandwidth, average, ratelimit]);
            (told.dirtied[number], told.written[number]) = (0, 0);
        }
        for (number, it) in told.tasks.iter_mut().enumerate() {
            if it.pages > 0 || it.checks > 0 {
                put_line(&mut told.out, "task", &[number as i64, it.pages, it.checks, it.pauses, it.ticks, it.longest]);
                *it = Tally::default();
            }
        }
        told.has_steps = false;
        send(&mut told.out)
    }

    fn print(&self, out: &mut impl Write) -> io::Result<()> {
        out.write_all(b"timer\n")?;
        out.write_all(&self.entries.bytes)?;
        for (number, cpu) in self.cpus.iter().enumerate() {
            writeln!(out, "cpu {number}")?;
            out.write_all(&cpu.log.bytes)?;
        }
        if self.many_steps > 0 {
            out.write_all(b"steps\n")?;
            out.write_all(&self.steps.bytes)?;
        }
        let (mut dirty, mut writeback) = (0, 0);
        for page in 0..self.words.len() * 32 {
            let bits = self.bits(page);
            dirty += bits & 1;
            writeback += bits >> 1;
            if bits != 0 {
                writeln!(out, "left {page} {}", ["", "dirty", "writeback", "both"][bits as usize])?;
            }
        }
        writeln!(out, "census {dirty} {writeback}")?;
        writeln!(out, "totals {} {}", self.fresh, self.done)?;
        for (number, it) in self.contexts.iter().enumerate() {
            if self.devices[it.device].is_strict {
                let writers = self.tasks.iter().flat_map(|task| &task.writers).filter(|writer| writer.context == number).count() as i64;
                let bound = it.greatest_own.max(8).max(self.error) + self.error + writers * self.cap;
                writeln!(out, "strict {number} {} {bound}", it.most)?;
            }
        }
        writeln!(out, "end {}", self.ending())
    }

    fn ending(&self) -> &'static str {
        if self.is_spent { "spent" } else if self.stopped > 0 { "halted" } else { "done" }
    }

    /// What is told at the end of a forecast.
    fn print_totals(&self, out: &mut impl Write) -> io::Result<()> {
        writeln!(out, "totals {} {}\nend {}", self.fresh, self.done, self.ending())
    }
}

/// Writes a text, which is empty then.
fn send(text: &mut Text) -> Result<(), Fault> {
    let done = io::stdout().lock().write_all(&text.bytes).and_then(|()| io::stdout().flush());
    text.bytes.clear();
    done.map_err(|_| Fault)
}

fn main() -> ExitCode {
    let words: Vec<String> = std::env::args().skip(1).collect();
    let every: Option<i64> = match words.first().map(String::as_str) {
        None => None,
        Some("forecast") => words.get(1).and_then(|every| every.parse().ok()),
        Some(_) => return ExitCode::from(1),
    };
    let mut text = String::new();
    if io::stdin().read_to_string(&mut text).is_err() {
        return ExitCode::from(3);
    }
    let Some(mut machine) = read(&text) else {
        return ExitCode::from(2);
    };
    let begun = every.map_or(Ok(()), |every| machine.begin_forecast(every));
    if begun.and_then(|()| machine.run()).is_err() {
        return ExitCode::from(4);
    }
    let out = &mut io::stdout().lock();
    let printed = if every.is_some() { machine.print_totals(out) } else { machine.print(out) };
    if printed.is_err() {
        return ExitCode::from(4);
    }
    if words.get(2).is_some() {
        eprintln!("{}", machine.many_steps);
    }
    ExitCode::from(if machine.is_spent { 7 } else { 0 })
}
