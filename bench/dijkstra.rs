//! The textbook way: the plan as a graph of events (every departure and every arrival is a node with its time), and
//! Dijkstra's search on it for two criteria, arrival and boats, with a heap of labels.

use std::cmp::Reverse;
use std::collections::BinaryHeap;

const NEVER: u64 = 1 << 40;

#[derive(Clone, Copy)]
struct Leg {
    run: u64,
    number: u64,
    from: usize,
    to: usize,
    leaves: u64,
    comes: u64,
}

/// Node `2 * i`: one waits at the pier where leg `i` leaves, at that time. Node `2 * i + 1`: one is aboard of it.
pub struct Graph {
    legs: Vec<Leg>,
    walks: Vec<Vec<(usize, u64)>>,
    // For each pier its departures by time: the time and the node.
    departures: Vec<Vec<(u64, usize)>>,
    // For each node those that follow it, and the boats that the step takes.
    edges: Vec<Vec<(usize, u64)>>,
}

impl Graph {
    /// The graph of a plan that may be used.
    pub fn of(words: &[u64]) -> Graph {
        let (piers, count, walk_count) = (words[0] as usize, words[1] as usize, words[2] as usize);
        let change = &words[3..3 + piers];
        let rest = &words[3 + piers..];
        let legs: Vec<Leg> = rest[..6 * count]
            .chunks_exact(6)
            .map(|w| Leg {
                run: w[0],
                number: w[1],
                from: w[2] as usize,
                to: w[3] as usize,
                leaves: w[4],
                comes: w[5],
            })
            .filter(|a| a.leaves <= a.comes)
            .collect();
        let mut walks = vec![Vec::new(); piers];
        for w in rest[6 * count..][..3 * walk_count].chunks_exact(3) {
            walks[w[0] as usize].push((w[1] as usize, w[2]));
        }
        let mut departures = vec![Vec::new(); piers];
        for (i, a) in legs.iter().enumerate() {
            departures[a.from].push((a.leaves, 2 * i));
        }
        for row in &mut departures {
            row.sort_unstable();
        }
        let mut graph = Graph { legs, walks, departures, edges: Vec::new() };
        let mut edges = vec![Vec::new(); 2 * graph.legs.len()];
        for row in &graph.departures {
            for pair in row.windows(2) {
                edges[pair[0].1].push((pair[1].1, 0));
            }
        }
        for (i, a) in graph.legs.iter().enumerate() {
            edges[2 * i].push((2 * i + 1, 1));
            edges[2 * i + 1].extend(graph.departure(a.to, a.comes + change[a.to]).map(|node| (node, 0)));
            for &(to, takes) in &graph.walks[a.to] {
                edges[2 * i + 1].extend(graph.departure(to, a.comes + takes).map(|node| (node, 0)));
            }
        }
        let mut names: Vec<usize> = (0..graph.legs.len()).collect();
        names.sort_unstable_by_key(|&i| (graph.legs[i].run, graph.legs[i].number));
        for pair in names.windows(2) {
            let (a, b) = (graph.legs[pair[0]], graph.legs[pair[1]]);
            if a.run == b.run && a.number + 1 == b.number && a.to == b.from && a.comes <= b.leaves {
                edges[2 * pair[0] + 1].push((2 * pair[1] + 1, 0));
            }
        }
        graph.edges = edges;
        graph
    }

    /// The first departure from a pier at a time or later.
    fn departure(&self, pier: usize, time: u64) -> Option<usize> {
        let row = &self.departures[pier];
        row.get(row.partition_point(|d| d.0 < time)).map(|d| d.1)
    }

    fn time(&self, node: usize) -> u64 {
        let a = self.legs[node / 2];
        if node % 2 == 0 { a.leaves } else { a.comes }
    }

    /// The answer to a question that may be asked.
    pub fn answer(&self, question: &[u64], out: &mut [u64]) {
        let &[from, time, to, most, ..] = question else { return };
        let (from, to) = (from as usize, to as usize);
        let mut soonest = [NEVER; 9];
        if from == to {
            soonest[0] = time;
        }
        // The labels that are settled at a node all have its time: the least boats of them is kept.
        let mut least = vec![u64::MAX; self.edges.len()];
        let mut heap = BinaryHeap::new();
        heap.extend(self.departure(from, time).map(|node| Reverse((self.time(node), 0, node))));
        for &(pier, takes) in &self.walks[from] {
            if pier == to {
                soonest[0] = soonest[0].min(time + takes);
            }
            heap.extend(self.departure(pier, time + takes).map(|node| Reverse((self.time(node), 0, node))));
        }
        while let Some(Reverse((_, boats, node))) = heap.pop() {
            if boats >= least[node] {
                continue;
            }
            least[node] = boats;
            if node % 2 == 1 {
                let a = self.legs[node / 2];
                let cell = &mut soonest[boats as usize];
                if a.to == to {
                    *cell = (*cell).min(a.comes);
                }
                for &(pier, takes) in &self.walks[a.to] {
                    if pier == to {
                        *cell = (*cell).min(a.comes + takes);
                    }
                }
            }
            for &(next, more) in &self.edges[node] {
                if boats + more <= most && boats + more < least[next] {
                    heap.push(Reverse((self.time(next), boats + more, next)));
                }
            }
        }
        let mut count = 0;
        let mut best = NEVER;
        for (boats, &arrival) in soonest.iter().enumerate() {
            if arrival < best {
                best = arrival;
                out[1 + 2 * count] = arrival;
                out[2 + 2 * count] = boats as u64;
                count += 1;
            }
        }
        out[0] = count as u64;
    }
}
