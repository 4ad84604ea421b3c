//! The same rules by the same algorithm in plain safe Rust, as fast as we can write it: what the proved code is
//! measured against. Times are below 2^32, so a leg fits in 12 bytes; there is no row of seeds.

const NEVER: u64 = 1 << 40;
const TIME_BOUND: u64 = 1 << 32;

/// One leg as the rounds read it.
#[derive(Clone, Copy, Default)]
struct Hop {
    leaves: u32,
    comes: u32,
    from: u8,
    to: u8,
    // One may stay aboard for it from the leg right before it.
    joins: bool,
}

#[derive(Clone, Copy, Default)]
struct Walk {
    takes: u32,
    to: u16,
    // One more than the place of the walk before it from the same pier, or 0.
    link: u16,
}

const PIERS: usize = 64;
const LEGS: usize = 1024;
const WALKS: usize = 256;

/// A plan laid out for questions, and the rows that a question works in. All of it is kept from plan to plan and from
/// question to question, so that nothing is allocated, and nothing cleared that need not be. The rows are arrays whose
/// lengths are powers of two, and places are masked: so no index is checked in the rounds.
pub struct Office {
    piers: usize,
    legs: usize,
    // Run, number and place of each leg, in order; the names are what an itinerary tells.
    keys: [u64; LEGS],
    hops: [Hop; LEGS],
    walks: [Walk; WALKS],
    first: [u16; PIERS],
    change: [u64; PIERS],
    // For each leg the least boats with which one is aboard; an itinerary is traced by them.
    pub level: [u8; LEGS],
    waits: [u32; LEGS],
    ready: [u64; PIERS],
    later: [u64; PIERS],
    arrived: [u64; PIERS],
}

/// The refusal's number. (Its place is found by another walk through the plan, which is not timed.)
pub type Refused = u64;

impl Default for Office {
    fn default() -> Office {
        Office {
            piers: 0,
            legs: 0,
            keys: [0; LEGS],
            hops: [Hop::default(); LEGS],
            walks: [Walk::default(); WALKS],
            first: [0; PIERS],
            change: [0; PIERS],
            level: [0; LEGS],
            waits: [0; LEGS],
            ready: [0; PIERS],
            later: [0; PIERS],
            arrived: [0; PIERS],
        }
    }
}

impl Office {
    /// Checks a plan and lays it out.
    pub fn open(&mut self, words: &[u64]) -> Result<(), Refused> {
        let &[piers, legs, walks, ..] = words else {
            return Err(1);
        };
        if piers > PIERS as u64 || legs > LEGS as u64 || walks > WALKS as u64 {
            return Err(1);
        }
        let (piers, legs, walks) = (piers as usize, legs as usize, walks as usize);
        let rest = &words[3..];
        if rest.len() < piers + 6 * legs + 3 * walks {
            return Err(1);
        }
        let (change, rest) = rest.split_at(piers);
        let (leg_words, rest) = rest.split_at(6 * legs);
        let walk_words = &rest[..3 * walks];
        self.read_legs(leg_words, piers as u64)?;
        self.read_walks(walk_words, piers)?;
        if change.iter().any(|&minutes| minutes >= TIME_BOUND) {
            return Err(2);
        }
        self.change[..piers].copy_from_slice(change);
        self.piers = piers;
        Ok(())
    }

    fn read_legs(&mut self, words: &[u64], piers: u64) -> Result<(), Refused> {
        let (parts, _) = words.as_chunks::<6>();
        let keys = &mut self.keys[..parts.len()];
        for (i, (key, &[run, number, from, to, leaves, comes])) in keys.iter_mut().zip(parts).enumerate() {
            let within = run < 65536
                && number < 65536
                && from < piers
                && to < piers
                && leaves < TIME_BOUND
                && comes < TIME_BOUND;
            if !within {
                return Err(2);
            }
            *key = run << 32 | number << 16 | i as u64;
        }
        if !keys.is_sorted() {
            keys.sort_unstable();
        }
        if keys.windows(2).any(|w| w[0] >> 16 == w[1] >> 16) {
            return Err(2);
        }
        // The run, the next number, the pier and the time of the leg before.
        let mut before = (u64::MAX, 0, 0, 0);
        for (hop, &key) in self.hops.iter_mut().zip(&*keys) {
            let [run, number, from, to, leaves, comes] = parts[(key & 65535) as usize];
            let (last_run, next, pier, time) = before;
            *hop = Hop {
                leaves: leaves as u32,
                comes: comes as u32,
                from: from as u8,
                to: to as u8,
                joins: run == last_run && number == next && from == pier && time <= leaves && leaves <= comes,
            };
            before = (run, number + 1, to, comes);
        }
        self.legs = parts.len();
        Ok(())
    }

    fn read_walks(&mut self, words: &[u64], piers: usize) -> Result<(), Refused> {
        self.first[..piers].fill(0);
        let (parts, _) = words.as_chunks::<3>();
        for (j, (walk, &[from, to, takes])) in self.walks.iter_mut().zip(parts).enumerate() {
            if from >= piers as u64 || to >= piers as u64 || takes >= TIME_BOUND {
                return Err(2);
            }
            let first = &mut self.first[from as usize];
            *walk = Walk { takes: takes as u32, to: to as u16, link: *first };
            *first = j as u16 + 1;
        }
        Ok(())
    }

    /// The answer to a question about the plan that is laid out: the count of marks, and arrival and boats of each.
    pub fn answer(&mut self, question: &[u64], out: &mut [u64]) -> Result<u64, Refused> {
        let &[from, time, to, most, ..] = question else {
            return Err(3);
        };
        let piers = self.piers as u64;
        if from >= piers || time >= TIME_BOUND || to >= piers || most > 8 {
            return Err(3);
        }
        let mut marks = [(0, 0); 9];
        let count = self.go_rounds(from as usize, time, to as usize, most as u8, &mut marks);
        let Some(row) = out.get_mut(..1 + 2 * count) else {
            return Err(4);
        };
        row[0] = count as u64;
        for (pair, mark) in row[1..].chunks_exact_mut(2).zip(&marks[..count]) {
            pair[0] = mark.0;
            pair[1] = mark.1;
        }
        Ok(count as u64)
    }

    /// The rounds: a pass over the legs that wait, by run and number, for each boat more.
    fn go_rounds(&mut self, from: usize, time: u64, to: usize, most: u8, marks: &mut [(u64, u64); 9]) -> usize {
        let Office { piers, legs, hops, walks, first, change, level, waits, ready, later, arrived, .. } = self;
        let (piers, legs) = (*piers, *legs);
        ready[..piers].fill(NEVER);
        later[..piers].fill(NEVER);
        arrived[..piers].fill(NEVER);
        level[..legs].fill(0);
        ready[from % PIERS] = time;
        let mut at = first[from % PIERS] as usize;
        while at != 0 {
            let w = walks[(at - 1) % WALKS];
            let cell = &mut ready[w.to as usize % PIERS];
            *cell = (*cell).min(time + w.takes as u64);
            at = w.link as usize;
        }
        let mut soon = ready[to % PIERS];
        let mut count = 0;
        if soon < NEVER {
            marks[0] = (soon, 0);
            count = 1;
        }
        let mut left = 0;
        for (i, hop) in hops[..legs].iter().enumerate() {
            waits[left % LEGS] = i as u32;
            left += (hop.leaves as u64 >= time && hop.leaves <= hop.comes) as usize;
        }
        for k in 1..=most {
            let mut still = 0;
            let mut best = soon;
            for c in 0..left {
                let place = waits[c % LEGS];
                let i = place as usize % LEGS;
                let hop = hops[i];
                let stays = hop.joins & (level[i.wrapping_sub(1) % LEGS] != 0);
                let in_time = ready[hop.from as usize % PIERS] <= hop.leaves as u64;
                if !(stays | in_time) {
                    waits[still % LEGS] = place;
                    still += 1;
                    continue;
                }
                level[i] = k;
                let comes = hop.comes as u64;
                let pier = hop.to as usize % PIERS;
                if comes >= arrived[pier] {
                    continue;
                }
                arrived[pier] = comes;
                later[pier] = later[pier].min(comes + change[pier]);
                if pier == to {
                    best = best.min(comes);
                }
                let mut at = first[pier] as usize;
                while at != 0 {
                    let w = walks[(at - 1) % WALKS];
                    let there = comes + w.takes as u64;
                    let cell = &mut later[w.to as usize % PIERS];
                    *cell = (*cell).min(there);
                    if w.to as usize == to {
                        best = best.min(there);
                    }
                    at = w.link as usize;
                }
            }
            if still == left {
                break;
            }
            if best < soon {
                soon = best;
                marks[count] = (soon, k as u64);
                count += 1;
            }
            ready[..piers].copy_from_slice(&later[..piers]);
            left = still;
        }
        count
    }
}
