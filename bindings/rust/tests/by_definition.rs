//! 2,000 random problems of labels, 2,000 whose pairs have tables and 2,000 of yes-no variables,
//! against the definitions.
use gco::{minimise, Moves, One, Pair, Problem, Refusal, TableProblem, Three, Two};

/// xorshift, the same on each machine.
struct Random(u64);

impl Random {
    fn below(&mut self, bound: u64) -> u64 {
        self.0 ^= self.0 << 13;
        self.0 ^= self.0 >> 7;
        self.0 ^= self.0 << 17;
        (self.0 >> 11) % bound
    }
    fn from(&mut self, least: i64, most: i64) -> i64 {
        least + self.below((most - least + 1) as u64) as i64
    }
}

struct Definition {
    labels: u32,
    data: Vec<i64>,
    smooth: Vec<i64>,
    label_costs: Vec<i64>,
    pairs: Vec<Pair>,
    /// If pairs have tables: the entries, and the number of each pair's table.
    tables: Option<(Vec<i64>, Vec<usize>)>,
}

impl Definition {
    fn random(random: &mut Random) -> Definition {
        let labels = random.from(1, 3) as u32;
        let sites = random.below(6) as u32;
        let spread = [3, 12][random.below(2) as usize];
        let shape = random.below(4);
        let mut smooth = Vec::new();
        for a in 0..labels as i64 {
            for b in 0..labels as i64 {
                let far = (a - b).abs();
                smooth.push(match shape {
                    0 => i64::from(a != b),
                    1 => far.min(2),
                    2 => far * far,
                    _ => random.from(0, 3),
                });
            }
        }
        let mut pairs = Vec::new();
        for _ in 0..if sites < 2 {
            0
        } else {
            random.below(2 * sites as u64)
        } {
            let first = random.below(sites as u64) as u32;
            let second = (first + 1 + random.below(sites as u64 - 1) as u32) % sites;
            pairs.push(Pair {
                first,
                second,
                weight: random.below(5) as u32,
            });
        }
        let costs = if random.below(3) == 0 { labels } else { 0 };
        Definition {
            labels,
            data: (0..sites * labels)
                .map(|_| random.from(0, spread))
                .collect(),
            smooth,
            label_costs: (0..costs).map(|_| random.from(0, 5)).collect(),
            pairs,
            tables: None,
        }
    }

    /// The same with a table for each pair, or with a few of which each pair has one.
    fn with_tables(random: &mut Random) -> Definition {
        let mut definition = Definition::random(random);
        let (k, count) = (i64::from(definition.labels), definition.pairs.len());
        let few = random.below(2) == 0;
        let tables = if few {
            random.from(1, 3) as usize
        } else {
            count
        };
        let steep = random.below(3) == 0;
        let mut entries = Vec::new();
        for _ in 0..tables {
            let far: Vec<i64> = (0..k).map(|_| random.from(0, 5)).collect();
            for (a, b) in (0..k).flat_map(|a| (0..k).map(move |b| (a, b))) {
                entries.push(match steep {
                    true => random.from(0, 8),
                    false => (far[a as usize] - far[b as usize]).abs() + i64::from(a != b),
                });
            }
        }
        let numbers = (0..count)
            .map(|n| {
                if few {
                    random.below(tables as u64) as usize
                } else {
                    n
                }
            })
            .collect();
        definition.tables = Some((entries, numbers));
        definition
    }

    fn smooth(&self, place: usize, a: u32, b: u32) -> i64 {
        let k = self.labels as usize;
        let at = a as usize * k + b as usize;
        let entry = match &self.tables {
            Some((entries, numbers)) => entries[numbers[place] * k * k + at],
            None => self.smooth[at],
        };
        i64::from(self.pairs[place].weight) * entry
    }

    fn parts(&self, f: &[u32]) -> (i64, i64, i64) {
        let data = f
            .iter()
            .enumerate()
            .map(|(s, l)| self.data[s * self.labels as usize + *l as usize])
            .sum();
        let smooth = self
            .pairs
            .iter()
            .enumerate()
            .map(|(n, p)| self.smooth(n, f[p.first as usize], f[p.second as usize]))
            .sum();
        let used = |l: &usize| f.contains(&(*l as u32));
        let label = (0..self.label_costs.len())
            .filter(used)
            .map(|l| self.label_costs[l])
            .sum();
        (data, smooth, label)
    }

    fn energy(&self, f: &[u32]) -> i64 {
        let (data, smooth, label) = self.parts(f);
        data + smooth + label
    }

    /// The best labelling that a move reaches, by trying each of them. An expansion is a move of
    /// twice the same label.
    fn moved(&self, f: &[u32], a: u32, b: u32) -> Result<Vec<u32>, Refusal> {
        let with = |old: u32, bit: usize| match bit {
            0 if a == b => old,
            _ if a == b => a,
            _ if old != a && old != b => old,
            0 => a,
            _ => b,
        };
        for (place, pair) in self.pairs.iter().enumerate() {
            let at = |x, y| {
                self.smooth(
                    place,
                    with(f[pair.first as usize], x),
                    with(f[pair.second as usize], y),
                )
            };
            if at(0, 0) + at(1, 1) > at(0, 1) + at(1, 0) {
                return Err(Refusal::NotRegular {
                    pair: place,
                    alpha: a,
                    beta: b,
                });
            }
        }
        let count = |g: &[u32]| g.iter().filter(|l| **l == b).count();
        let reached = (0..1usize << f.len()).map(|bits| {
            f.iter()
                .enumerate()
                .map(|(s, old)| with(*old, bits >> s & 1))
                .collect::<Vec<u32>>()
        });
        let best = reached.min_by_key(|g| (self.energy(g), count(g))).unwrap();
        Ok(if self.energy(&best) < self.energy(f) {
            best
        } else {
            f.to_vec()
        })
    }

    fn run(
        &self,
        moves: Moves,
        most: u32,
        start: &[u32],
    ) -> Result<(Vec<u32>, u32, bool), Refusal> {
        if moves == Moves::Swap && self.label_costs.iter().any(|cost| *cost > 0) {
            return Err(Refusal::LabelCostInSwap);
        }
        let mut f = start.to_vec();
        for cycle in 0..most {
            let before = f.clone();
            for a in 0..self.labels {
                let seconds = if moves == Moves::Swap {
                    a + 1..self.labels
                } else {
                    a..a + 1
                };
                for b in seconds {
                    f = self.moved(&f, a, b)?;
                }
            }
            if f == before {
                return Ok((f, cycle + 1, true));
            }
        }
        Ok((f, most, false))
    }
}

#[test]
fn labels() {
    let mut random = Random(88172645463325252);
    let (mut answered, mut irregular, mut costly, mut met) = (0, 0, 0, 0);
    for _ in 0..2000 {
        let definition = Definition::random(&mut random);
        let sites = definition.data.len() / definition.labels as usize;
        let start: Vec<u32> = (0..sites)
            .map(|_| random.below(definition.labels.into()) as u32)
            .collect();
        let moves = if random.below(2) == 0 {
            Moves::Expansion
        } else {
            Moves::Swap
        };
        let most = [0, 1, 2, 50][random.below(4) as usize];
        let problem = Problem {
            label_count: definition.labels,
            data: &definition.data,
            smooth: &definition.smooth,
            label_costs: &definition.label_costs,
            pairs: &definition.pairs,
        };
        let narrow = |costs: &[i64]| costs.iter().map(|cost| *cost as i32).collect::<Vec<i32>>();
        let (data, smooth, label_costs) = (
            narrow(problem.data),
            narrow(problem.smooth),
            narrow(problem.label_costs),
        );
        let mut labels = start.clone();
        let told = problem.label(moves, Some(most), &mut labels);
        let mut labels32 = start.clone();
        let problem32 = Problem {
            label_count: definition.labels,
            data: &data,
            smooth: &smooth,
            label_costs: &label_costs,
            pairs: &definition.pairs,
        };
        assert_eq!(problem32.label(moves, Some(most), &mut labels32), told);
        assert_eq!(labels32, labels);
        match definition.run(moves, most, &start) {
            Ok((f, cycles, settled)) => {
                let told = told.unwrap();
                assert_eq!(
                    (labels, told.cycles, told.settled),
                    (f.clone(), cycles, settled)
                );
                assert_eq!((told.data, told.smooth, told.label), definition.parts(&f));
                answered += 1;
            }
            Err(refusal) => {
                assert_eq!((told, labels), (Err(refusal), start.clone()));
                match refusal {
                    Refusal::LabelCostInSwap => costly += 1,
                    _ => irregular += 1,
                }
            }
        }
        single_moves(&definition, &problem, &start, &mut random);
        let mut at = start.clone();
        let low = problem.lower_bound(None, None, &mut at).unwrap();
        met += usize::from(is_bound_met(&definition, low, &at));
    }
    assert!(met > 1000, "{met}");
    assert!(
        answered > 1000 && irregular > 50 && costly > 100,
        "{answered} {irregular} {costly}"
    );
}

#[test]
fn tables() {
    let mut random = Random(88172645463325253);
    let (mut answered, mut irregular, mut met) = (0, 0, 0);
    for _ in 0..2000 {
        let definition = Definition::with_tables(&mut random);
        let sites = definition.data.len() / definition.labels as usize;
        let start: Vec<u32> = (0..sites)
            .map(|_| random.below(definition.labels.into()) as u32)
            .collect();
        let moves = [Moves::Expansion, Moves::Swap][random.below(2) as usize];
        let most = [0, 1, 2, 50][random.below(4) as usize];
        let (entries, numbers) = definition.tables.as_ref().unwrap();
        let mut table_of: Vec<u32> = numbers.iter().map(|number| *number as u32).collect();
        if numbers.iter().enumerate().all(|(n, number)| n == *number) {
            table_of.clear();
        }
        let problem = TableProblem {
            label_count: definition.labels,
            data: &definition.data,
            tables: entries,
            table_of: &table_of,
            label_costs: &definition.label_costs,
            pairs: &definition.pairs,
        };
        let mut labels = start.clone();
        let told = problem.label(moves, Some(most), &mut labels);
        match definition.run(moves, most, &start) {
            Ok((f, cycles, settled)) => {
                let told = told.unwrap();
                assert_eq!((&labels, told.cycles, told.settled), (&f, cycles, settled));
                assert_eq!((told.data, told.smooth, told.label), definition.parts(&f));
                assert_eq!(told.bound, None);
                answered += 1;
            }
            Err(refusal) => {
                assert_eq!((told, &labels), (Err(refusal), &start));
                irregular += usize::from(refusal != Refusal::LabelCostInSwap);
            }
        }
        let mut at = start.clone();
        let low = problem.lower_bound(None, None, &mut at).unwrap();
        met += usize::from(is_bound_met(&definition, low, &at));
        let a = random.below(definition.labels.into()) as u32;
        let moved = definition.moved(&labels, a, a);
        let told = problem.expand(a, &mut labels);
        assert_eq!(told.is_ok(), moved.is_ok());
        if let Ok(moved) = moved {
            assert_eq!(
                (&labels, told.unwrap().energy()),
                (&moved, definition.energy(&moved))
            );
        }
    }
    assert!(met > 1000, "{met}");
    assert!(answered > 1000 && irregular > 50, "{answered} {irregular}");
}

/// Whether a bound is the least energy of all labellings; it is never above that, nor below what
/// the cheapest labels cost.
fn is_bound_met(definition: &Definition, low: i64, labels: &[u32]) -> bool {
    let k = definition.labels as usize;
    let least = (0..k.pow(labels.len() as u32))
        .map(|number| {
            let label = |site: usize| (number / k.pow(site as u32) % k) as u32;
            definition.energy(&(0..labels.len()).map(label).collect::<Vec<u32>>())
        })
        .min()
        .unwrap();
    let cheapest: i64 = definition
        .data
        .chunks(k)
        .map(|costs| costs.iter().min().unwrap())
        .sum();
    assert!(cheapest <= low && low <= least, "{cheapest} {low} {least}");
    assert!(labels.iter().all(|label| *label < definition.labels));
    low == least
}

fn single_moves(definition: &Definition, problem: &Problem, start: &[u32], random: &mut Random) {
    let a = random.below(definition.labels.into()) as u32;
    let b = random.below(definition.labels.into()) as u32;
    let mut labels = start.to_vec();
    let (told, wanted) = if a == b || !definition.label_costs.is_empty() {
        (
            problem.expand(a, &mut labels),
            definition.moved(start, a, a),
        )
    } else {
        (
            problem.swap(a, b, &mut labels),
            definition.moved(start, a, b),
        )
    };
    match wanted {
        Ok(f) => {
            let told = told.unwrap();
            assert_eq!(
                (told.changed, told.energy(), &labels),
                (f != start, definition.energy(&f), &f)
            );
        }
        Err(refusal) => assert_eq!((told, &labels[..]), (Err(refusal), start)),
    }
}

fn is_regular(at: &[i64; 8]) -> bool {
    [(4, 2, 1), (2, 4, 1), (1, 4, 2)]
        .iter()
        .all(|(fixed, i, j)| {
            [0, *fixed]
                .iter()
                .all(|from| at[*from] + at[from + i + j] <= at[from + i] + at[from + j])
        })
}

#[test]
fn energies() {
    let mut random = Random(1442695040888963407);
    let mut with_threes = 0;
    for _ in 0..2000 {
        let n = random.from(1, 6) as u32;
        let constant = random.from(-20, 20);
        let mut ones = Vec::new();
        let (mut twos, mut threes) = (Vec::new(), Vec::new());
        let mut values = vec![constant; 1 << n];
        let bit = |x: usize, v: u32| x >> v & 1;
        for _ in 0..random.below(8) {
            let (v, at) = (
                random.below(n.into()) as u32,
                [random.from(-4, 4), random.from(-4, 4)],
            );
            ones.push(One::new(v, at));
            (0..1 << n).for_each(|x| values[x] += at[bit(x, v)]);
        }
        for _ in 0..if n < 2 { 0 } else { random.below(8) } {
            let p = random.below(n.into()) as u32;
            let q = (p + 1 + random.below(u64::from(n) - 1) as u32) % n;
            let mut at = [0; 4].map(|_| random.from(-4, 4));
            at[3] = at[1] + at[2] - at[0] - random.from(0, 3);
            twos.push(Two::new(p, q, at));
            (0..1 << n).for_each(|x| values[x] += at[2 * bit(x, p) + bit(x, q)]);
        }
        for _ in 0..if n < 3 { 0 } else { 40 } {
            let at = [0; 8].map(|_| random.from(-2, 2));
            if !is_regular(&at) {
                continue;
            }
            let p = random.below(n.into()) as u32;
            let (q, r) = ((p + 1) % n, (p + 2) % n);
            threes.push(Three::new(p, q, r, at));
            (0..1 << n).for_each(|x| values[x] += at[4 * bit(x, p) + 2 * bit(x, q) + bit(x, r)]);
        }
        with_threes += usize::from(!threes.is_empty());
        let least = *values.iter().min().unwrap();
        let smallest = (0..1 << n)
            .filter(|x| values[*x] == least)
            .fold((1 << n) - 1, |all, x| all & x);
        let mut assignment = vec![9; n as usize];
        assert_eq!(
            minimise(constant, &ones, &twos, &threes, &mut assignment),
            Ok(least)
        );
        for v in 0..n {
            assert_eq!(usize::from(assignment[v as usize]), bit(smallest, v));
        }
    }
    assert!(with_threes > 300, "{with_threes}");
}
