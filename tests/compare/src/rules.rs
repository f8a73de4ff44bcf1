//! The rules of the worksheet in plain Rust, written from the paper alone.
//! Numbers are worked out in 64 bits, where nothing in an acceptable junction overflows.
//! Where flows count, UNIT says how many of a flow's units are one vehicle per hour: 10 as the rules read now, 1 as they read
//! before; it divides 10,000.
//! What fills, single points and interchanges share is `inline(always)`: left to the compiler, two callers cost a fill half its time again; and
//! so is what a function with a UNIT calls once, which the compiler would otherwise keep apart, a tenth of a fill's time.

pub const BLANK: u32 = u32::MAX;
pub const ENTRIES: usize = 93;
pub const CELLS: usize = 221;
/// The entries of a movement, and where those of the approaches begin.
pub const MOVEMENT: usize = 6;
pub const OWN: usize = 72;
pub const CYCLE: usize = 92;
pub const LINES: usize = 28;
/// The first lines, all that protected phasing goes by.
pub const PROTECTED_LINES: usize = 18;
/// The most sites of a study file, and of one from before lane factors were measured; the entries of a site then.
pub const SITES: usize = 165;
pub const OLD_SITES: usize = 180;
pub const OLD_ENTRIES: usize = 81;
/// Flows are in tenths of a vehicle per hour.
pub const FLOW_UNIT: u64 = 10;
/// Where the lines, the pair cells and the last eight begin in a sheet.
pub const FIRST_LINE: usize = 93;
pub const PAIRS: usize = 205;
pub const LAST: usize = 213;

#[derive(Clone, Copy, Debug, PartialEq, Eq)]
pub struct Answer {
    pub number: u32,
    pub place: u32,
}

pub const ACCEPTED: Answer = refused(0, 0);
pub const SIZE: u32 = 1;
pub const ENTRY: u32 = 2;
pub const RANGE: u32 = 3;
pub const SHARED: u32 = 4;
pub const NOLANE: u32 = 5;
pub const FILE: u32 = 6;

pub(crate) const fn refused(number: u32, place: u32) -> Answer {
    Answer { number, place }
}

// ---------------------------------------------------------------- entries

pub const KINDS: usize = 12;
/// The kind of the measured lane factors, which may also be BY_TABLE.
pub const FACTOR: usize = 5;
pub const BY_TABLE: u32 = 0;

/// Lowest and highest value of the kinds in the order of their entries: six of a movement,
/// five of an approach, the cycle.
pub const LIMITS: [(u32, u32); KINDS] = [
    (0, 6),
    (0, 9_999),
    (1_000, 2_400),
    (0, 20_000),
    (0, 60_000),
    (500, 1_000),
    (0, 1),
    (0, 2_000),
    (0, 1),
    (0, 60_000),
    (0, 1),
    (30, 240),
];

/// Which of the twelve kinds stands at an entry's place.
pub const fn kind_of(entry: usize) -> usize {
    match entry {
        0..OWN => entry % MOVEMENT,
        OWN..CYCLE => MOVEMENT + (entry - OWN) % 5,
        _ => KINDS - 1,
    }
}

/// Where the entry of a movement, an approach stands.
pub const fn movement_entry(a: usize, turn: usize, kind: usize) -> usize {
    MOVEMENT * (3 * a + turn) + kind
}

pub const fn approach_entry(a: usize, j: usize) -> usize {
    OWN + 5 * a + j
}

/// Of each entry the lowest value, how far the highest is from it, and a value besides: a lane factor's 0, else the lowest again.
const fn limit_tables() -> [[u32; ENTRIES]; 3] {
    let mut tables = [[0; ENTRIES]; 3];
    let mut i = 0;
    while i < ENTRIES {
        let (least, most) = LIMITS[kind_of(i)];
        tables[0][i] = least;
        tables[1][i] = most - least;
        tables[2][i] = if kind_of(i) == FACTOR { BY_TABLE } else { least };
        i += 1;
    }
    tables
}

static LOW: [u32; ENTRIES] = limit_tables()[0];
static SPAN: [u32; ENTRIES] = limit_tables()[1];
static BESIDES: [u32; ENTRIES] = limit_tables()[2];

fn out_of_range(entries: &[u32; ENTRIES], i: usize) -> bool {
    (entries[i].wrapping_sub(LOW[i]) > SPAN[i]) & (entries[i] != BESIDES[i])
}

/// A junction's shared lane takes the place of left lanes, in a through lane.
fn badly_shared(entries: &[u32; ENTRIES], a: usize) -> bool {
    let lanes = |turn: usize| entries[movement_entry(a, turn, 0)];
    entries[approach_entry(a, 0)] == 1 && (lanes(0) > 0 || lanes(1) == 0)
}

/// SIZE, RANGE, SHARED, NOLANE in this order, each at its lowest place.
pub fn judge(entries: &[u32]) -> Answer {
    judge_sharing(entries, badly_shared)
}

/// The same, with the approaches whose shared lane is refused.
#[inline(always)]
pub(crate) fn judge_sharing(
    entries: &[u32],
    badly_shared: impl Fn(&[u32; ENTRIES], usize) -> bool,
) -> Answer {
    let Ok(entries) = <&[u32; ENTRIES]>::try_from(entries) else {
        return refused(SIZE, 0);
    };
    // One pass without an early end runs in vectors; the place is looked for only when needed.
    if (0..ENTRIES).fold(false, |bad, i| bad | out_of_range(entries, i)) {
        let place = (0..ENTRIES).find(|&i| out_of_range(entries, i));
        return refused(RANGE, place.unwrap_or(0) as u32);
    }
    for a in 0..4 {
        if badly_shared(entries, a) {
            return refused(SHARED, a as u32);
        }
    }
    for a in 0..4 {
        if let Some(turn) = laneless(entries, a) {
            return refused(NOLANE, 3 * a as u32 + turn);
        }
    }
    ACCEPTED
}

/// The first turn of an approach that has volume and no lane to use.
fn laneless(entries: &[u32; ENTRIES], a: usize) -> Option<u32> {
    let lanes = |turn: usize| entries[movement_entry(a, turn, 0)];
    let volume = |turn: usize| entries[movement_entry(a, turn, 1)];
    if volume(0) > 0 && lanes(0) == 0 && entries[approach_entry(a, 0)] == 0 {
        return Some(0);
    }
    if volume(1) > 0 && lanes(1) == 0 {
        return Some(1);
    }
    (volume(2) > 0 && lanes(2) == 0 && lanes(1) == 0).then_some(2)
}

// ---------------------------------------------------------------- the lines

/// The decay number: e^(-m/7200) in billionths, by the rule's own roundings; with STOP the terms end at the first that is 0.
#[inline]
fn decay_number<const STOP: bool>(m: u64) -> u64 {
    if m >= 115_200 {
        return 0;
    }
    let (times, r) = (m / 7_200, m % 7_200);
    let (mut term, mut sum) = (1_000_000_000u64, 1_000_000_000u64);
    // A half-open range unrolls, and every division is then by a constant.
    for k in 1..13u64 {
        term = term * r / (7_200 * k);
        if STOP && term == 0 {
            break;
        }
        sum = if k % 2 == 1 { sum - term } else { sum + term };
    }
    for _ in 0..times {
        sum = sum * 367_879_441 / 1_000_000_000;
    }
    sum
}

/// The decay number, all twelve terms worked out.
pub fn decay_of_all_terms(m: u64) -> u64 {
    decay_number::<false>(m)
}

/// The decay number, worked out up to the first term that is 0.
pub fn decay_with_a_stop(m: u64) -> u64 {
    decay_number::<true>(m)
}

/// The decay number as the lines ask for it; the feature `stop` is for timing.
#[inline]
pub fn decay(m: u64) -> u64 {
    decay_number::<{ cfg!(feature = "stop") }>(m)
}

/// The entries of one movement.
#[derive(Clone, Copy)]
struct Movement {
    lanes: u64,
    volume: u64,
    ideal: u64,
    lost: u64,
    least: u64,
    measured: u64,
}

/// The entries of one approach.
#[derive(Clone, Copy)]
struct Approach {
    left: Movement,
    through: Movement,
    right: Movement,
    shared: bool,
    walkers: u64,
    button: bool,
    walk: u64,
    free: bool,
}

impl Movement {
    fn read(e: &[u32; ENTRIES], a: usize, turn: usize) -> Movement {
        let at = |kind: usize| u64::from(e[movement_entry(a, turn, kind)]);
        Movement {
            lanes: at(0),
            volume: at(1),
            ideal: at(2),
            lost: at(3),
            least: at(4),
            measured: at(FACTOR),
        }
    }

    /// The lane factor of so many lanes, in thousandths: the measured one, or the table's, whose last goes on.
    #[inline(always)]
    fn factor(&self, lanes: u64, table: &[u64; 3]) -> u64 {
        match self.measured {
            0 => table[lanes.min(3) as usize - 1],
            measured => measured,
        }
    }
}

impl Approach {
    #[inline(always)]
    fn read(e: &[u32; ENTRIES], a: usize) -> Approach {
        let own = |j: usize| e[approach_entry(a, j)];
        Approach {
            left: Movement::read(e, a, 0),
            through: Movement::read(e, a, 1),
            right: Movement::read(e, a, 2),
            shared: own(0) == 1,
            walkers: u64::from(own(1)),
            button: own(2) == 1,
            walk: u64::from(own(3)),
            free: own(4) == 1,
        }
    }
}

/// Volumes of the groups (lines 1 to 3), what was folded into T, and vST.
#[derive(Clone, Copy)]
struct Volumes {
    left: u64,
    through: u64,
    right: u64,
    folded_left: u64,
    folded_right: u64,
    straight: u64,
}

/// Lines 4 to 9.
#[derive(Clone, Copy)]
struct Flows {
    turning: u64,
    left: u64,
    through: u64,
    right: u64,
    straight: u64,
    alone: u64,
}

/// Lines 10 to 12.
#[derive(Clone, Copy)]
struct Walking {
    right: u64,
    through: u64,
    frequency: u64,
}

/// All that an approach's lines need of the approach itself.
struct Own {
    entries: Approach,
    volumes: Volumes,
    flows: Flows,
    walking: Walking,
    reference_through: u64,
}

/// All that lines 21 to 24 need of the oncoming approach.
struct Oncoming {
    single: bool,
    share: u64,
    straight: u64,
}

/// 1000·v·CL over a flow, the volume turned into the flow's unit, up; a part without volume takes no time.
fn green<const UNIT: u64>(volume: u64, cycle: u64, flow: u64) -> u64 {
    if volume == 0 {
        return 0;
    }
    (1_000 * UNIT * volume * cycle).div_ceil(flow)
}

#[inline(always)]
fn volumes(x: &Approach) -> Volumes {
    let folded_left = if x.shared { x.left.volume } else { 0 };
    let folded_right = if x.right.lanes == 0 {
        x.right.volume
    } else {
        0
    };
    let straight = x.through.volume + folded_right;
    Volumes {
        left: x.left.volume - folded_left,
        through: straight + folded_left,
        right: x.right.volume - folded_right,
        folded_left,
        folded_right,
        straight,
    }
}

const LEFT_FACTORS: [u64; 3] = [1_000, 971, 971];
const THROUGH_FACTORS: [u64; 3] = [1_000, 952, 908];
const RIGHT_FACTORS: [u64; 3] = [1_000, 885, 885];

/// i·n·lane factor, in thousandths; nothing without lanes, whatever was measured.
fn lanes_flow(x: &Movement, table: &[u64; 3]) -> u64 {
    if x.lanes == 0 {
        return 0;
    }
    x.ideal * x.lanes * x.factor(x.lanes, table)
}

/// Lanes and a factor give 10⁷ for each vehicle per hour: fewer for each unit of a flow.
#[inline(always)]
fn flows<const UNIT: u64>(x: &Approach, v: &Volumes) -> Flows {
    let (c, a, b) = (v.through, v.folded_right, v.folded_left);
    // Without folded turns both factors are 10,000 exactly, and without lefts they are one.
    let turning = match a + b {
        0 => 10_000,
        _ => (100 * c - 15 * a) * (100 * c - 5 * b) / (c * c),
    };
    let going = match (a, b) {
        (0, _) => 10_000,
        (_, 0) => turning,
        _ => 100 * (100 * v.straight - 15 * a) / v.straight,
    };
    let through = lanes_flow(&x.through, &THROUGH_FACTORS);
    let left = lanes_flow(&x.left, &LEFT_FACTORS) * 9_500 / (10_000_000 / UNIT);
    Flows {
        turning,
        left,
        through: through * turning / (10_000_000 / UNIT),
        right: lanes_flow(&x.right, &RIGHT_FACTORS) * 8_500 / (10_000_000 / UNIT),
        straight: through * going / (10_000_000 / UNIT),
        // A shared lane's lefts stand in one left lane, with the left movement's factor though it has no lane.
        alone: if x.shared {
            x.left.ideal * x.left.factor(1, &LEFT_FACTORS) * 9_500 / (10_000_000 / UNIT)
        } else {
            left
        },
    }
}

#[inline(always)]
fn walking(x: &Approach, v: &Volumes, cycle: u64) -> Walking {
    let p = x.walkers;
    if p == 0 {
        return Walking {
            right: 0,
            through: 0,
            frequency: 0,
        };
    }
    let frequency = match x.button {
        true => 10_000 - decay(2 * p * cycle) / 100_000,
        false => 10_000,
    };
    let blocked = || 24_000 - (8 * decay(p * (cycle - 8)) + 16 * decay(4 * p)) / 1_000_000;
    if x.right.lanes > 0 {
        return Walking {
            right: blocked(),
            through: 0,
            frequency,
        };
    }
    // Nobody to hold up where no right turns stand in T.
    let through = match v.folded_right {
        0 => 0,
        rights => (blocked() * rights).div_ceil(v.through),
    };
    Walking {
        right: 0,
        through,
        frequency,
    }
}

#[inline(always)]
fn own<const UNIT: u64>(e: &[u32; ENTRIES], a: usize, cycle: u64) -> Own {
    let entries = Approach::read(e, a);
    let volumes = volumes(&entries);
    let flows = flows::<UNIT>(&entries, &volumes);
    let walking = walking(&entries, &volumes, cycle);
    let reference_through = green::<UNIT>(volumes.through, cycle, flows.through) + walking.through;
    Own {
        entries,
        volumes,
        flows,
        walking,
        reference_through,
    }
}

impl Own {
    /// No left lane, one through lane, no right lane, shared, with lefts.
    fn seen_from_across(&self) -> Oncoming {
        let x = &self.entries;
        let lanes = (x.left.lanes, x.through.lanes, x.right.lanes);
        let single = lanes == (0, 1, 0) && x.shared && x.left.volume > 0;
        let share = match single {
            true => 10_000 * x.left.volume / self.volumes.through,
            false => 0,
        };
        Oncoming {
            single,
            share,
            straight: self.volumes.straight,
        }
    }

    /// Lost time and the reference time, weighted by how often somebody walks.
    fn weighted(&self, reference: u64) -> u64 {
        let through = &self.entries.through;
        let a = through.least.max(reference);
        let more = self.entries.walk.saturating_sub(a);
        through.lost + a + (more * self.walking.frequency).div_ceil(10_000)
    }

    fn empty(&self) -> bool {
        self.volumes.left + self.volumes.through == 0
    }

    /// Where nobody drives: what those who walk across through lanes take.
    fn crossing(&self) -> u64 {
        match (self.entries.through.lanes, self.entries.walkers) {
            (0, _) | (_, 0) => 0,
            _ => self.weighted(0),
        }
    }
}

/// Lost time and the longer of reference and minimum; nothing without volume.
fn adjusted(x: &Movement, volume: u64, reference: u64) -> u64 {
    if volume == 0 {
        return 0;
    }
    x.lost + x.least.max(reference)
}

/// Lines 1 to 18.
#[inline(always)]
fn first_lines<const UNIT: u64>(x: &Own, cycle: u64, line: &mut [u32]) {
    let (e, v, f, w) = (&x.entries, &x.volumes, &x.flows, &x.walking);
    let left = green::<UNIT>(v.left, cycle, f.left);
    let through = x.reference_through;
    let right = match v.right {
        0 => 0,
        _ => green::<UNIT>(v.right, cycle, f.right) + w.right,
    };
    let through_adjusted = match v.through {
        0 => x.crossing(),
        _ => x.weighted(through),
    };
    let found = [
        v.left,
        v.through,
        v.right,
        f.turning,
        f.left,
        f.through,
        f.right,
        f.straight,
        f.alone,
        w.right,
        w.through,
        w.frequency,
        left,
        through,
        right,
        adjusted(&e.left, v.left, left),
        through_adjusted,
        adjusted(&e.right, v.right, right),
    ];
    for (cell, number) in line.iter_mut().zip(found) {
        *cell = number as u32;
    }
}

/// Lines 1 to 18 of one approach, of entries already found acceptable, at the front of those there is room for. Single points and
/// interchanges ask for unlike rooms: with one for both, an interchange takes an eighth of its time more.
#[inline(always)]
pub(crate) fn protected_lines<const ROOM: usize>(entries: &[u32; ENTRIES], a: usize) -> [u32; ROOM] {
    let cycle = u64::from(entries[CYCLE]);
    let mut line = [0; ROOM];
    let own = own::<FLOW_UNIT>(entries, a, cycle);
    first_lines::<FLOW_UNIT>(&own, cycle, &mut line);
    line
}

/// Lines 16 to 18 of it.
pub(crate) fn adjusted_lines(entries: &[u32; ENTRIES], a: usize) -> [u32; 3] {
    let line = protected_lines::<LINES>(entries, a);
    [line[15], line[16], line[17]]
}

/// How many through vehicles a left turn is worth, in ten-thousandths.
fn equivalent(q: u64, cycle: u64, share: u64) -> u64 {
    let num = 500_000_000 + 80_000 * q - 3 * q * q;
    let den = 2 * (10_000 + q) + share * cycle;
    (num * cycle).div_ceil(10 * den)
}

/// One lane's flow with its lefts waiting for gaps, in the unit of the flow of all lanes.
fn hindered(flow: u64, lanes: u64, q: u64, e: u64) -> u64 {
    // q·E first: E may be below 10,000, the whole sum never is below 0.
    let slowing = 1_000_000_000_000 / (100_000_000 + q * e - 10_000 * q);
    flow * slowing / (lanes * 10_000)
}

/// Lines 19 to 22, all 0 where T has no volume.
#[inline(always)]
fn left_lane(x: &Own, across: &Oncoming, cycle: u64) -> [u64; 4] {
    let (c, b, n) = (
        x.volumes.through,
        x.volumes.folded_left,
        x.entries.through.lanes,
    );
    if c == 0 {
        return [0; 4];
    }
    let volume = b.max((4 * b + c).div_ceil(n).saturating_sub(4 * b));
    let q = (10_000 * b).div_ceil(volume);
    let e = equivalent(q, cycle, across.share);
    // Without lefts in the lane nothing is slowed.
    let flow = match q {
        0 => x.flows.through / n,
        _ => hindered(x.flows.through, n, q, e),
    };
    [volume, q, e, flow]
}

/// Line 23 where it is allowed.
fn option_a<const UNIT: u64>(x: &Own, lane: &[u64; 4], across: &Oncoming, cycle: u64) -> u64 {
    let (v, w) = (&x.volumes, &x.walking);
    let mut most = 0;
    if v.through > 0 {
        let all = x.reference_through - w.through;
        most = all.max(green::<UNIT>(lane[0], cycle, lane[3]) + w.through);
    }
    if v.left > 0 {
        let lanes = x.entries.left.lanes;
        let e = equivalent(10_000, cycle, across.share);
        let flow = hindered(x.flows.left, lanes, 10_000, e);
        let all = green::<UNIT>(v.left, cycle, x.flows.left);
        most = most
            .max(all)
            .max(green::<UNIT>(v.left.div_ceil(lanes), cycle, flow));
    }
    most
}

/// Line 24 where it is allowed.
fn option_b(x: &Own, straight: u64, alone: u64) -> u64 {
    let (f, n) = (&x.flows, x.entries.through.lanes);
    let mut most = 0;
    if x.volumes.straight > 0 {
        let behind = match x.entries.shared {
            true => f.through * (n - 1) / n,
            false => f.through,
        };
        most = 8_000 + straight - 8_000 * behind / f.straight + x.walking.through;
    }
    if x.entries.left.volume > 0 {
        most = most.max(8_000 + alone);
    }
    most
}

/// Lines 19 to 28.
fn later_lines<const UNIT: u64>(x: &Own, across: &Oncoming, cycle: u64, line: &mut [u32; LINES]) {
    let lane = left_lane(x, across, cycle);
    for (cell, number) in line[18..22].iter_mut().zip(lane) {
        *cell = number as u32;
    }
    if x.empty() {
        line[22..].fill(0);
        line[25] = x.crossing() as u32;
        line[27] = line[25];
        return;
    }
    let vl = x.entries.left.volume;
    let straight = green::<UNIT>(x.volumes.straight, cycle, x.flows.straight);
    let alone = green::<UNIT>(vl, cycle, x.flows.alone);
    let a = match vl < 60 || across.single {
        true => option_a::<UNIT>(x, &lane, across, cycle) as u32,
        false => BLANK,
    };
    let b = match across.straight <= 120 {
        true => option_b(x, straight, alone) as u32,
        false => BLANK,
    };
    // BLANK is above every time, so it loses against one.
    let permitted = a.min(b);
    let split = x
        .reference_through
        .max(straight + x.walking.through)
        .max(alone);
    line[22] = a;
    line[23] = b;
    line[24] = permitted;
    line[25] = match permitted {
        BLANK => BLANK,
        time => x.weighted(u64::from(time)) as u32,
    };
    line[26] = split as u32;
    line[27] = x.weighted(split) as u32;
}

// ---------------------------------------------------------------- pairs and totals

/// Protected, permitted, split, picked.
fn pair(own: &[Own], line: &[[u32; LINES]]) -> [u32; 4] {
    let (x, y) = (&line[0], &line[1]);
    let protected = match own[0].entries.shared || own[1].entries.shared {
        true => BLANK,
        false => (x[15] + y[16]).max(y[15] + x[16]),
    };
    let permitted = x[25].max(y[25]);
    let split = x[27] + y[27];
    let picked = if protected <= permitted && protected <= split {
        0
    } else if permitted <= split {
        1
    } else {
        2
    };
    [protected, permitted, split, picked]
}

fn through_time(line: &[u32; LINES], picked: u32) -> u32 {
    [line[16], line[25], line[27]][picked as usize]
}

fn left_time(line: &[u32; LINES], picked: u32) -> u32 {
    [line[15], 0, line[27]][picked as usize]
}

/// The approach whose through crosses each right turn's way out.
pub(crate) const CROSS: [usize; 4] = [3, 2, 0, 1];
const LETTER_ENDS: [u32; 7] = [550, 640, 730, 820, 910, 1_000, 1_090];

pub fn letter(icu: u32) -> u32 {
    LETTER_ENDS.iter().filter(|&&end| icu > end).count() as u32
}

fn right_total(own: &[Own; 4], line: &[[u32; LINES]; 4], picked: [u32; 2], a: usize) -> u32 {
    let alone = line[a][17];
    if line[a][2] == 0 {
        return 0;
    }
    if own[a].entries.free {
        return alone;
    }
    let cross = CROSS[a];
    alone + through_time(&line[cross], picked[cross / 2]) + left_time(&line[a ^ 1], picked[a / 2])
}

#[inline(always)]
fn last_eight(
    own: &[Own; 4],
    line: &[[u32; LINES]; 4],
    pairs: &[[u32; 4]; 2],
    cycle: u32,
) -> [u32; 8] {
    let picked = [pairs[0][3], pairs[1][3]];
    let mut last = [0; 8];
    for a in 0..4 {
        last[a] = right_total(own, line, picked, a);
    }
    last[4] = pairs[0][picked[0] as usize] + pairs[1][picked[1] as usize];
    last[5] = last[..5].iter().copied().max().unwrap_or(0);
    last[6] = last[5].div_ceil(cycle);
    last[7] = letter(last[6]);
    last
}

// ---------------------------------------------------------------- fill and amend

/// The whole sheet of entries already found acceptable.
fn work_out<const UNIT: u64>(entries: &[u32; ENTRIES], sheet: &mut [u32; CELLS]) {
    let cycle = u64::from(entries[CYCLE]);
    let own: [Own; 4] = std::array::from_fn(|a| own::<UNIT>(entries, a, cycle));
    let mut line = [[0u32; LINES]; 4];
    for a in 0..4 {
        let across = own[a ^ 1].seen_from_across();
        first_lines::<UNIT>(&own[a], cycle, &mut line[a]);
        later_lines::<UNIT>(&own[a], &across, cycle, &mut line[a]);
    }
    let pairs = [pair(&own[..2], &line[..2]), pair(&own[2..], &line[2..])];
    let last = last_eight(&own, &line, &pairs, entries[CYCLE]);
    sheet[..ENTRIES].copy_from_slice(entries);
    for a in 0..4 {
        sheet[FIRST_LINE + LINES * a..][..LINES].copy_from_slice(&line[a]);
    }
    sheet[PAIRS..][..4].copy_from_slice(&pairs[0]);
    sheet[PAIRS + 4..][..4].copy_from_slice(&pairs[1]);
    sheet[LAST..].copy_from_slice(&last);
}

/// Judges the entries and writes the 221 cells, flows in the unit asked for; nothing is written on a refusal.
#[inline(always)]
pub fn fill_in<const UNIT: u64>(entries: &[u32], sheet: &mut [u32]) -> Answer {
    let (Ok(entries), Ok(sheet)) = (entries.try_into(), sheet.try_into()) else {
        return refused(SIZE, 0);
    };
    let entries: &[u32; ENTRIES] = entries;
    let answer = judge(entries);
    if answer == ACCEPTED {
        work_out::<UNIT>(entries, sheet);
    }
    answer
}

/// The same with flows as the rules have them.
pub fn fill(entries: &[u32], sheet: &mut [u32]) -> Answer {
    fill_in::<FLOW_UNIT>(entries, sheet)
}

/// A set of an approach's lines, bit k−1 for line k.
pub(crate) const fn lines(first: u32, last: u32) -> u32 {
    (1 << last) - (1 << (first - 1))
}

const ALL: u32 = lines(1, 28);
const ADJUSTED: u32 = lines(16, 18) | lines(26, 26) | lines(28, 28);
const WALKERS: u32 = lines(10, 12) | lines(14, 15) | lines(17, 18) | lines(23, 28);
const WALK_TIME: u32 = lines(17, 17) | lines(26, 26) | lines(28, 28);
/// Own lines reached by an amendment, by the entry's kind, the cycle apart.
pub(crate) const REACHED: [u32; KINDS - 1] = [
    ALL,
    ALL,
    ALL,
    ADJUSTED,
    ADJUSTED,
    ALL,
    ALL,
    WALKERS,
    WALK_TIME | lines(12, 12),
    WALK_TIME,
    0,
];
pub(crate) const FREE_RIGHT: usize = 10;

/// The approach of an entry, the cycle apart.
pub(crate) const fn approach_of(entry: usize) -> usize {
    match entry {
        0..OWN => entry / (3 * MOVEMENT),
        _ => (entry - OWN) / 5,
    }
}

fn copy_lines(sheet: &mut [u32; CELLS], fresh: &[u32; CELLS], a: usize, set: u32) {
    let at = FIRST_LINE + LINES * a;
    if set == ALL {
        sheet[at..at + LINES].copy_from_slice(&fresh[at..at + LINES]);
        return;
    }
    for k in 0..LINES {
        if set >> k & 1 == 1 {
            sheet[at + k] = fresh[at + k];
        }
    }
}

fn copy_reached(sheet: &mut [u32; CELLS], fresh: &[u32; CELLS], entry: usize) {
    sheet[entry] = fresh[entry];
    if entry == CYCLE {
        sheet[FIRST_LINE..].copy_from_slice(&fresh[FIRST_LINE..]);
        return;
    }
    let (kind, a) = (kind_of(entry), approach_of(entry));
    copy_lines(sheet, fresh, a, REACHED[kind]);
    if REACHED[kind] == ALL {
        copy_lines(sheet, fresh, a ^ 1, lines(21, 26));
    }
    if kind != FREE_RIGHT {
        let at = PAIRS + 4 * (a / 2);
        sheet[at..at + 4].copy_from_slice(&fresh[at..at + 4]);
    }
    sheet[LAST..].copy_from_slice(&fresh[LAST..]);
}

/// Judges the entries as they would stand, fills afresh and takes over what the entry reaches.
pub fn amend(sheet: &mut [u32], entry: u32, value: u32) -> Answer {
    let Ok(sheet) = <&mut [u32; CELLS]>::try_from(sheet) else {
        return refused(SIZE, 0);
    };
    if entry as usize >= ENTRIES {
        return refused(ENTRY, 0);
    }
    let mut entries = [0; ENTRIES];
    entries.copy_from_slice(&sheet[..ENTRIES]);
    entries[entry as usize] = value;
    let answer = judge(&entries);
    if answer == ACCEPTED {
        let mut fresh = [0; CELLS];
        work_out::<FLOW_UNIT>(&entries, &mut fresh);
        copy_reached(sheet, &fresh, entry as usize);
    }
    answer
}

// ---------------------------------------------------------------- study files

/// A kind of study file: its first four bytes, the most sites, the entries of a site.
struct Kind {
    opening: &'static [u8; 4],
    sites: usize,
    entries: usize,
}

/// The kind that is written, and the one from before lane factors were measured, which is still read.
const KIND: Kind = Kind {
    opening: b"ICUT",
    sites: SITES,
    entries: ENTRIES,
};
const OLD_KIND: Kind = Kind {
    opening: b"ICUS",
    sites: OLD_SITES,
    entries: OLD_ENTRIES,
};

impl Kind {
    /// Where block j of k stands; block k would begin where the file ends.
    const fn block(&self, k: usize, j: usize) -> usize {
        8 + 4 * k + 4 * self.entries * j
    }
}

/// How many bytes a file of k sites has, and one of before.
pub const fn file_length(k: usize) -> usize {
    KIND.block(k, k)
}

pub const fn old_file_length(k: usize) -> usize {
    OLD_KIND.block(k, k)
}

/// The number at a place of the file, none where the file ends before its last byte.
fn number_at(file: &[u8], at: usize) -> Option<u32> {
    let bytes = file.get(at..at + 4)?;
    Some(u32::from_le_bytes(bytes.try_into().ok()?))
}

/// The kind and the count of a well laid out file, or the place of the first wrong field.
fn layout(file: &[u8]) -> Result<(&'static Kind, usize), usize> {
    let opening = number_at(file, 0).ok_or(file.len())?.to_le_bytes();
    let kinds = [&KIND, &OLD_KIND];
    let kind = kinds.into_iter().find(|kind| *kind.opening == opening);
    let kind = kind.ok_or(0usize)?;
    let k = number_at(file, 4).ok_or(file.len())? as usize;
    if k > kind.sites {
        return Err(4);
    }
    for j in 0..k {
        let at = 8 + 4 * j;
        let offset = number_at(file, at).ok_or(file.len())?;
        if offset as usize != kind.block(k, j) {
            return Err(at);
        }
    }
    let end = kind.block(k, k);
    match file.len() == end {
        true => Ok((kind, k)),
        false => Err(file.len().min(end)),
    }
}

/// Where an entry of a site of before stands today.
pub const fn place_today(entry: usize) -> usize {
    match entry {
        0..60 => movement_entry(0, entry / 5, entry % 5),
        _ => entry + ENTRIES - OLD_ENTRIES,
    }
}

/// The entries of a site of a good file; of a file of before, the table's factors with them.
fn block(file: &[u8], (kind, k): (&Kind, usize), site: usize) -> [u32; ENTRIES] {
    let bytes = &file[kind.block(k, site)..kind.block(k, site + 1)];
    let numbers = bytes
        .chunks_exact(4)
        .map(|four| u32::from_le_bytes([four[0], four[1], four[2], four[3]]));
    let old = kind.entries == OLD_ENTRIES;
    let mut entries = [BY_TABLE; ENTRIES];
    for (at, number) in numbers.enumerate() {
        entries[if old { place_today(at) } else { at }] = number;
    }
    entries
}

pub fn study_check(file: &[u8]) -> Answer {
    match layout(file) {
        Ok(_) => ACCEPTED,
        Err(place) => refused(FILE, place as u32),
    }
}

/// How many sites the file has; 0 for a bad one.
pub fn study_count(file: &[u8]) -> u32 {
    layout(file).map_or(0, |(_, k)| k as u32)
}

/// Whether a good file is one of before.
pub fn study_is_old(file: &[u8]) -> bool {
    layout(file).is_ok_and(|(kind, _)| kind.entries == OLD_ENTRIES)
}

pub fn study_site(file: &[u8], site: u32, entries: &mut [u32]) -> Answer {
    if entries.len() != ENTRIES {
        return refused(SIZE, 0);
    }
    match layout(file) {
        Err(place) => refused(FILE, place as u32),
        Ok((_, k)) if site as usize >= k => refused(FILE, 4),
        Ok(found) => {
            entries.copy_from_slice(&block(file, found, site as usize));
            ACCEPTED
        }
    }
}

pub fn study_write(entries: &[u32], out: &mut [u8]) -> Answer {
    if entries.len() % ENTRIES != 0 {
        return refused(SIZE, 0);
    }
    let k = entries.len() / ENTRIES;
    if k > SITES {
        return refused(FILE, 0);
    }
    if out.len() < file_length(k) {
        return refused(FILE, 4);
    }
    out[..4].copy_from_slice(KIND.opening);
    let count = std::iter::once(k as u32);
    let offsets = (0..k).map(|j| KIND.block(k, j) as u32);
    let numbers = count.chain(offsets).chain(entries.iter().copied());
    for (four, number) in out[4..].chunks_exact_mut(4).zip(numbers) {
        four.copy_from_slice(&number.to_le_bytes());
    }
    ACCEPTED
}

// ---------------------------------------------------------------- the listing

/// The most bytes a listing takes: 180 lines of a number, an ICU, a letter and two picks.
const LONGEST_LINE: usize = 24;

fn push_number(text: &mut Vec<u8>, mut number: u32) {
    let mut digits = [0; 10];
    let mut at = digits.len();
    loop {
        at -= 1;
        digits[at] = b'0' + (number % 10) as u8;
        number /= 10;
        if number == 0 {
            break;
        }
    }
    text.extend_from_slice(&digits[at..]);
}

fn push_refusal(text: &mut Vec<u8>, answer: Answer) {
    text.extend_from_slice(b" R");
    push_number(text, answer.number);
    text.push(b' ');
    push_number(text, answer.place);
}

fn push_rating(text: &mut Vec<u8>, sheet: &[u32; CELLS]) {
    text.push(b' ');
    push_number(text, sheet[LAST + 6]);
    text.push(b' ');
    text.push(b'A' + sheet[LAST + 7] as u8);
    text.push(b' ');
    text.push(b"PMS"[sheet[PAIRS + 3] as usize]);
    text.push(b"PMS"[sheet[PAIRS + 7] as usize]);
}

/// What `iculist` prints for a file.
pub fn listing(file: &[u8]) -> Vec<u8> {
    let (kind, k) = match layout(file) {
        Ok(found) => found,
        Err(place) => {
            let mut text = b"file".to_vec();
            push_refusal(&mut text, refused(FILE, place as u32));
            text.push(b'\n');
            return text;
        }
    };
    let mut text = Vec::with_capacity(LONGEST_LINE * k);
    let mut sheet = [0; CELLS];
    for site in 0..k {
        let answer = fill(&block(file, (kind, k), site), &mut sheet);
        push_number(&mut text, site as u32 + 1);
        match answer {
            ACCEPTED => push_rating(&mut text, &sheet),
            _ => push_refusal(&mut text, answer),
        }
        text.push(b'\n');
    }
    text
}

/// The listing at the front of `out`; nothing altered where it has too little room.
pub fn study_list(file: &[u8], out: &mut [u8], length: &mut u32) -> Answer {
    let text = listing(file);
    if out.len() < text.len() {
        return refused(FILE, 4);
    }
    out[..text.len()].copy_from_slice(&text);
    *length = text.len() as u32;
    ACCEPTED
}
