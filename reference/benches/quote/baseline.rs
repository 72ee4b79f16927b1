//! A baseline written for speed: image octets in, the four figures with their walks out.
//!
//! The transitions stand by state in one array. The least figures take states nearest first, with
//! a 4-ary heap, and stop at the first final state. One depth-first search gives both greatest
//! figures, and keeps the walk to the first open transition that it takes. A final start is left at
//! the beginning, and its place keeps what it costs to arrive there. For the counts of a class
//! the states that count are set anew, and the search keeps no delays. Nothing is allocated.

const STATES: usize = 512;
const TRANSITIONS: usize = 2048;

const NUMBER: u32 = 0;
const NONE: u32 = 1;
const STRANDED: u32 = 2;
const ENDLESS: u32 = 3;

const START: u8 = 4;
const FINAL: u8 = 2;
const COUNTED: u8 = 1;

/// The class of each team, by a number.
const CLASSES: [u8; 32] = [
    0, 1, 1, 1, 1, 1, 1, 1, 1, 1, 2, 2, 2, 2, 2, 2, 2, 2, 2, 2, 3, 3, 3, 3, 3, 3, 3, 3, 3, 3, 4, 4,
];

/// The high that means no limit.
const OPEN: u16 = 2047;

/// The four walks, in the record's order.
pub type Walks = [[u16; STATES]; 4];
/// A kind, a figure, k and j.
pub type Answer = [u32; 4];

/// Reads an image and quotes the four figures, or gives the number that the image is refused by.
pub fn quote(octets: &[u8], walks: &mut Walks, answers: &mut [Answer; 4]) -> Result<(), u32> {
    let mut graph = NO_GRAPH;
    graph.read(octets)?;
    let [least_delay, greatest_delay, least_count, greatest_count] = walks;
    answers[0] = graph.least(|step| u32::from(step.low), |_| 0, least_delay);
    answers[2] = graph.least_count(least_count);
    [answers[1], answers[3]] = graph.greatest::<true>([greatest_delay, greatest_count]);
    Ok(())
}

/// Reads an image and quotes the least and the greatest count for the class of a team, or gives the
/// number that the image or the team is refused by.
pub fn quote_class(
    octets: &[u8],
    team: u32,
    walks: &mut [[u16; STATES]; 2],
    answers: &mut [Answer; 2],
) -> Result<(), u32> {
    let mut graph = NO_GRAPH;
    graph.read(octets)?;
    let class = *CLASSES.get(team as usize).ok_or(18u32)?;
    for state in 0..graph.n {
        let team = usize::from(graph.teams[state] % 32);
        graph.counted[state] = u8::from(CLASSES[team] == class);
    }
    let [least, greatest] = walks;
    answers[0] = graph.least_count(least);
    let mut no_walk = [0; STATES];
    [_, answers[1]] = graph.greatest::<false>([&mut no_walk, greatest]);
    Ok(())
}

#[derive(Clone, Copy)]
struct Step {
    to: u16,
    low: u16,
    high: u16,
    number: u16,
}

const NO_STEP: Step = Step {
    to: 0,
    low: 0,
    high: 0,
    number: 0,
};

struct Graph {
    n: usize,
    marks: [u8; STATES],
    teams: [u8; STATES],
    /// 1 for each state that counts.
    counted: [u8; STATES],
    /// The steps of state s stand from place first[s] up to first[s + 1].
    first: [u16; STATES + 1],
    steps: [Step; TRANSITIONS],
}

/// All zero, for `read` to fill in its place: it is too large to be copied.
const NO_GRAPH: Graph = Graph {
    n: 0,
    marks: [0; STATES],
    teams: [0; STATES],
    counted: [0; STATES],
    first: [0; STATES + 1],
    steps: [NO_STEP; TRANSITIONS],
};

impl Graph {
    fn read(&mut self, octets: &[u8]) -> Result<(), u32> {
        let Some((header, body)) = octets.split_first_chunk::<4>() else {
            return Err(1);
        };
        let header = u32::from_be_bytes(*header);
        let n = (header >> 18 & 0x3FF) as usize;
        let m = (header >> 6 & 0xFFF) as usize;
        let spare = match header >> 28 {
            1 => 0x1F,
            2 => 0,
            _ => return Err(3),
        };
        if n == 0 || n > STATES {
            return Err(4);
        }
        if m > TRANSITIONS {
            return Err(5);
        }
        if header & 0x3F != 0 {
            return Err(6);
        }
        if body.len() < n + 5 * m {
            return Err(1);
        }
        if body.len() > n + 5 * m {
            return Err(2);
        }

        self.n = n;
        for (state, &octet) in body[..n].iter().enumerate() {
            if octet & spare != 0 {
                return Err(6);
            }
            self.marks[state] = octet >> 5;
            self.teams[state] = octet & 0x1F;
            self.counted[state] = octet >> 5 & COUNTED;
        }
        self.place_steps(&body[n..])
    }

    /// Reads the transitions and puts them by the state that they leave.
    fn place_steps(&mut self, octets: &[u8]) -> Result<(), u32> {
        let from = |record: &[u8]| usize::from(u16::from_be_bytes([record[0], record[1]]) >> 7);
        for record in octets.chunks_exact(5) {
            self.first[from(record) + 1] += 1;
        }
        for state in 0..self.n {
            self.first[state + 1] += self.first[state];
        }
        let mut next = self.first;
        for (number, record) in octets.chunks_exact(5).enumerate() {
            let from = from(record);
            let bits = u32::from_be_bytes([record[1], record[2], record[3], record[4]]);
            let step = Step {
                to: (bits >> 22 & 0x1FF) as u16,
                low: (bits >> 11 & 0x7FF) as u16,
                high: (bits & 0x7FF) as u16,
                number: number as u16,
            };
            if from >= self.n {
                return Err(16);
            }
            if usize::from(step.to) >= self.n {
                return Err(17);
            }
            if step.low > step.high {
                return Err(8);
            }
            self.steps[usize::from(next[from])] = step;
            next[from] += 1;
        }
        Ok(())
    }

    fn steps_of(&self, state: usize) -> std::ops::Range<usize> {
        usize::from(self.first[state])..usize::from(self.first[state + 1])
    }

    fn is_start(&self, state: usize) -> bool {
        self.marks[state] & START != 0
    }

    fn is_final(&self, state: usize) -> bool {
        self.marks[state] & FINAL != 0
    }

    fn counted(&self, state: usize) -> u32 {
        u32::from(self.counted[state])
    }

    /// The least number of counted states over all routes.
    fn least_count(&self, walk: &mut [u16; STATES]) -> Answer {
        self.least(
            |step| self.counted(usize::from(step.to)),
            |state| self.counted(state),
            walk,
        )
    }

    /// The least sum of weights, and of what the first state costs, over all routes.
    fn least(
        &self,
        weight: impl Fn(Step) -> u32,
        first_cost: impl Fn(usize) -> u32,
        walk: &mut [u16; STATES],
    ) -> Answer {
        let mut nearest = Nearest::new();
        for state in (0..self.n).filter(|&state| self.is_start(state)) {
            let cost = first_cost(state);
            if self.is_final(state) {
                self.leave(state, cost, &weight, &mut nearest);
            } else {
                nearest.reach(state, cost, (NO_STATE, 0));
            }
        }
        while let Some((cost, state)) = nearest.heap.pop() {
            if self.is_final(state) {
                let k = self.trace_back(&nearest.came, state, walk);
                return answer(NUMBER, cost, k);
            }
            if cost == nearest.costs[state] {
                self.leave(state, cost, &weight, &mut nearest);
            }
        }
        answer(NONE, 0, 0)
    }

    /// Takes every step from a state that is reached at this cost.
    #[inline(always)]
    fn leave(&self, state: usize, cost: u32, weight: impl Fn(Step) -> u32, nearest: &mut Nearest) {
        for &step in &self.steps[self.steps_of(state)] {
            let came = (state as u16, step.number);
            nearest.reach(usize::from(step.to), cost + weight(step), came);
        }
    }

    /// Puts the walk to a final state in order and returns its length. It began at a start that nothing
    /// led to, or at a final one.
    fn trace_back(
        &self,
        came: &[(u16, u16); STATES],
        last: usize,
        walk: &mut [u16; STATES],
    ) -> usize {
        let mut k = 0;
        let mut state = last;
        while came[state].0 != NO_STATE && (k == 0 || !self.is_final(state)) {
            walk[k] = came[state].1;
            k += 1;
            state = usize::from(came[state].0);
        }
        walk[..k].reverse();
        k
    }

    /// The greatest delay and the greatest count; the count alone where no delays are wanted.
    fn greatest<const DELAYS: bool>(&self, walks: [&mut [u16; STATES]; 2]) -> [Answer; 2] {
        let mut search = Search::<DELAYS>::new(self);
        if !(0..self.n).any(|state| self.is_start(state)) {
            return [answer(NONE, 0, 0); 2];
        }
        for start in (0..self.n).filter(|&state| self.is_start(state)) {
            if let Some((k, j)) = search.explore(start) {
                for walk in walks {
                    walk[..k].copy_from_slice(&search.walk[..k]);
                }
                return [[ENDLESS, 0, k as u32, j as u32]; 2];
            }
        }
        let [delay_walk, count_walk] = walks;
        let stranded = |k: usize, walk: &mut [u16; STATES]| {
            walk[..k].copy_from_slice(&search.stranded_walk[..k]);
            answer(STRANDED, 0, k)
        };
        let delay = match search.open {
            _ if !DELAYS => answer(NONE, 0, 0),
            Some(k) => {
                delay_walk[..k].copy_from_slice(&search.open_walk[..k]);
                [ENDLESS, 0, k as u32, k as u32]
            }
            None => match search.stranded {
                Some(k) => stranded(k, delay_walk),
                None => self.best(|_, step| u32::from(step.high), &search.delays, delay_walk),
            },
        };
        let count = match search.stranded {
            Some(k) => stranded(k, count_walk),
            None => self.best(|state, _| self.counted(state), &search.counts, count_walk),
        };
        [delay, count]
    }

    /// The greatest value of a start, and the walk that its choices make. At a final start the values are
    /// of arriving there, and each step that leaves it is looked at.
    fn best(
        &self,
        weight: impl Fn(usize, Step) -> u32,
        values: &[(u32, u16); STATES],
        walk: &mut [u16; STATES],
    ) -> Answer {
        // A value, and the place of the first step.
        let mut best = (0, 0);
        let mut is_first = true;
        let mut offer = |value: (u32, u16)| {
            if is_first || value.0 > best.0 {
                best = value;
            }
            is_first = false;
        };
        for state in (0..self.n).filter(|&state| self.is_start(state)) {
            if self.is_final(state) {
                for at in self.steps_of(state) {
                    let step = self.steps[at];
                    let value = weight(state, step) + values[usize::from(step.to)].0;
                    offer((value, at as u16));
                }
            } else {
                offer(values[state]);
            }
        }
        let (figure, mut at) = best;
        let mut k = 0;
        loop {
            let step = self.steps[usize::from(at)];
            let state = usize::from(step.to);
            walk[k] = step.number;
            k += 1;
            if self.is_final(state) {
                return answer(NUMBER, figure, k);
            }
            at = values[state].1;
        }
    }
}

/// An answer without a j.
fn answer(kind: u32, figure: u32, k: usize) -> Answer {
    [kind, figure, k as u32, 0]
}

/// No state came before.
const NO_STATE: u16 = u16::MAX;

/// What it costs to reach each state, as far as is known.
struct Nearest {
    costs: [u32; STATES],
    /// The state before, and the number of the transition from there.
    came: [(u16, u16); STATES],
    heap: Heap,
}

impl Nearest {
    #[inline(always)]
    fn new() -> Nearest {
        Nearest {
            costs: [u32::MAX; STATES],
            came: [(NO_STATE, 0); STATES],
            heap: Heap::new(),
        }
    }

    /// Keeps the cost of a state where it is less than what is known.
    #[inline(always)]
    fn reach(&mut self, state: usize, cost: u32, came: (u16, u16)) {
        if cost < self.costs[state] {
            self.costs[state] = cost;
            self.came[state] = came;
            self.heap.push(cost, state);
        }
    }
}

/// A 4-ary heap of costs with states, in one word each. A state may be on it more than once.
struct Heap {
    length: usize,
    entries: [u32; STATES + TRANSITIONS],
}

impl Heap {
    fn new() -> Heap {
        Heap {
            length: 0,
            entries: [0; STATES + TRANSITIONS],
        }
    }

    fn push(&mut self, cost: u32, state: usize) {
        let entry = cost << 9 | state as u32;
        let mut place = self.length;
        self.length += 1;
        while place > 0 {
            let above = (place - 1) / 4;
            if self.entries[above] <= entry {
                break;
            }
            self.entries[place] = self.entries[above];
            place = above;
        }
        self.entries[place] = entry;
    }

    fn pop(&mut self) -> Option<(u32, usize)> {
        if self.length == 0 {
            return None;
        }
        let nearest = self.entries[0];
        self.length -= 1;
        let entry = self.entries[self.length];
        let mut place = 0;
        loop {
            let below = 4 * place + 1;
            if below >= self.length {
                break;
            }
            let children = &self.entries[below..self.length.min(below + 4)];
            let (mut least, mut at) = (children[0], 0);
            for (child, &other) in children.iter().enumerate().skip(1) {
                if other < least {
                    (least, at) = (other, child);
                }
            }
            if least >= entry {
                break;
            }
            self.entries[place] = least;
            place = below + at;
        }
        self.entries[place] = entry;
        Some((nearest >> 9, (nearest & 0x1FF) as usize))
    }
}

const UNSEEN: u16 = u16::MAX;
const LEFT: u16 = u16::MAX - 1;

/// A depth-first search over unfinished states, from starts that may be final.
struct Search<'a, const DELAYS: bool> {
    graph: &'a Graph,
    /// For each state UNSEEN, its place on the path, or LEFT.
    place: [u16; STATES],
    /// The place of each state's next step.
    next: [u16; STATES],
    path: [u16; STATES],
    /// The transitions between the states of the path.
    walk: [u16; STATES],
    /// The greatest delay and count from each state on, with the step that begins there. The delays
    /// mean nothing once an open transition was taken.
    delays: [(u32, u16); STATES],
    counts: [(u32, u16); STATES],
    /// The walk to the first dead end.
    stranded: Option<usize>,
    stranded_walk: [u16; STATES],
    /// The walk that takes the first open transition, which is its last.
    open: Option<usize>,
    open_walk: [u16; STATES],
}

impl<const DELAYS: bool> Search<'_, DELAYS> {
    #[inline(always)]
    fn new(graph: &Graph) -> Search<'_, DELAYS> {
        let mut counts = [(0, 0); STATES];
        let mut next = [0; STATES];
        for state in 0..graph.n {
            counts[state].0 = graph.counted(state);
            next[state] = graph.first[state];
        }
        Search {
            graph,
            place: [UNSEEN; STATES],
            next,
            path: [0; STATES],
            walk: [0; STATES],
            delays: [(0, 0); STATES],
            counts,
            stranded: None,
            stranded_walk: [0; STATES],
            open: None,
            open_walk: [0; STATES],
        }
    }

    /// Searches from a start. Stops at a state that is on the path already, with k and j.
    fn explore(&mut self, start: usize) -> Option<(usize, usize)> {
        if self.place[start] == LEFT {
            return None;
        }
        self.enter(start, 0);
        let mut depth = 0;
        loop {
            let state = usize::from(self.path[depth]);
            let at = self.next[state];
            if at == self.graph.first[state + 1] {
                self.place[state] = LEFT;
                if depth == 0 {
                    return None;
                }
                depth -= 1;
                let above = usize::from(self.path[depth]);
                self.update(above, self.next[above] - 1);
                continue;
            }
            self.next[state] = at + 1;
            let step = self.graph.steps[usize::from(at)];
            let to = usize::from(step.to);
            self.walk[depth] = step.number;
            if DELAYS && step.high == OPEN && self.open.is_none() {
                self.open = Some(depth + 1);
                self.open_walk[..=depth].copy_from_slice(&self.walk[..=depth]);
            }
            if self.graph.is_final(to) || self.place[to] == LEFT {
                self.update(state, at);
                continue;
            }
            depth += 1;
            if self.place[to] != UNSEEN {
                return Some((depth, usize::from(self.place[to])));
            }
            self.enter(to, depth);
        }
    }

    fn enter(&mut self, state: usize, depth: usize) {
        self.place[state] = depth as u16;
        self.path[depth] = state as u16;
        if self.stranded.is_none() && self.graph.steps_of(state).is_empty() {
            self.stranded = Some(depth);
            self.stranded_walk[..depth].copy_from_slice(&self.walk[..depth]);
        }
    }

    /// Takes a step whose target has its values into account at the state that it leaves. A final start
    /// keeps the values of arriving there.
    fn update(&mut self, state: usize, at: u16) {
        if self.graph.is_final(state) {
            return;
        }
        let step = self.graph.steps[usize::from(at)];
        let to = usize::from(step.to);
        let is_first = self.graph.first[state] == at;
        if DELAYS {
            let delay = u32::from(step.high) + self.delays[to].0;
            if is_first || delay > self.delays[state].0 {
                self.delays[state] = (delay, at);
            }
        }
        let count = self.graph.counted(state) + self.counts[to].0;
        if is_first || count > self.counts[state].0 {
            self.counts[state] = (count, at);
        }
    }
}
