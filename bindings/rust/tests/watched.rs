//! Runs that are watched after each move, and stopped after some: random problems, whose labels
//! after so many moves single moves tell, which `by_definition.rs` holds to the definition.
use gco::{Moves, Pair, Problem, Refusal};
use std::ops::ControlFlow;
use std::time::Duration;

fn below(state: &mut u64, bound: u64) -> u64 {
    *state ^= *state << 13;
    *state ^= *state >> 7;
    *state ^= *state << 17;
    (*state >> 11) % bound
}

/// The labels after each move of a run, from those before the first.
fn chain(problem: &Problem, moves: Moves, cycles: u32, start: &[u32]) -> Vec<Vec<u32>> {
    let mut chain = vec![start.to_vec()];
    let k = problem.label_count;
    for _ in 0..cycles {
        let before = chain.last().unwrap().clone();
        for alpha in 0..k {
            let last = if moves == Moves::Swap { k } else { alpha + 1 };
            for beta in alpha + u32::from(moves == Moves::Swap)..last {
                let mut labels = chain.last().unwrap().clone();
                if alpha == beta {
                    problem.expand(alpha, &mut labels).unwrap();
                } else {
                    problem.swap(alpha, beta, &mut labels).unwrap();
                }
                chain.push(labels);
            }
        }
        if chain[chain.len() - 1] == before {
            break;
        }
    }
    chain
}

/// How many moves of a chain a run makes: a whole cycle after the last that changed something.
fn moves_to_make(chain: &[Vec<u32>], cycle: usize) -> usize {
    let last = (1..chain.len()).filter(|&i| chain[i] != chain[i - 1]).max();
    (last.unwrap_or(1) + cycle - 1).min(chain.len() - 1)
}

#[test]
fn each_move_is_told_and_a_stop_leaves_its_labels() {
    let mut state = 73;
    let (mut stopped, mut jumped) = (0, 0);
    for turn in 0..500 {
        let (sites, k) = (below(&mut state, 6), 1 + below(&mut state, 4));
        let data: Vec<i64> = (0..sites * k)
            .map(|_| below(&mut state, 9) as i64)
            .collect();
        let smooth: Vec<i64> = (0..k * k)
            .map(|at| (at / k).abs_diff(at % k).min(2) as i64)
            .collect();
        let pairs: Vec<Pair> = (1..sites as u32)
            .map(|second| Pair {
                first: second - 1,
                second,
                weight: below(&mut state, 4) as u32,
            })
            .collect();
        let problem = Problem {
            label_count: k as u32,
            data: &data,
            smooth: &smooth,
            label_costs: &[],
            pairs: &pairs,
        };
        let start: Vec<u32> = (0..sites).map(|_| below(&mut state, k) as u32).collect();
        let moves = [Moves::Expansion, Moves::Swap][below(&mut state, 2) as usize];
        let cycles = [0, 1, 2, 50][below(&mut state, 4) as usize];
        let chain = chain(&problem, moves, cycles, &start);
        let cycle = if moves == Moves::Swap {
            k * (k - 1) / 2
        } else {
            k
        } as usize;
        let made = moves_to_make(&chain, cycle);
        jumped += usize::from(made < chain.len() - 1);
        let energy = |labels: &[u32]| {
            problem
                .label(moves, Some(0), &mut labels.to_vec())
                .unwrap()
                .energy()
        };
        let mut whole = start.clone();
        let wanted = problem.label(moves, Some(cycles), &mut whole).unwrap();
        // stopped after each number of calls, and not at all
        for stop in 1..=made + 1 {
            let (mut labels, mut seen) = (start.clone(), Vec::new());
            let told =
                problem.label_watched(moves, Some(cycles), Duration::ZERO, &mut labels, |so_far| {
                    assert_eq!(
                        so_far.energy(),
                        energy(&chain[so_far.moves as usize]),
                        "{turn}"
                    );
                    assert_eq!(so_far.cycle_moves, cycle as u64);
                    seen.push(so_far.moves as usize);
                    if seen.len() == stop {
                        ControlFlow::Break(())
                    } else {
                        ControlFlow::Continue(())
                    }
                });
            let told = told.unwrap();
            let mut due: Vec<usize> = (1..made).chain([chain.len() - 1]).take(made).collect();
            if stop >= made {
                assert_eq!((told, &labels), (wanted, &whole), "{turn}");
            } else {
                due.truncate(stop);
                assert_eq!(
                    (&labels, told.energy()),
                    (&chain[stop], energy(&chain[stop])),
                    "{turn}"
                );
                assert!(!told.settled && told.bound.is_none());
                stopped += 1;
            }
            assert_eq!(seen, due, "{turn}");
        }
        // the same by calls that are far apart, over costs of 32 bits
        let narrow = |costs: &[i64]| costs.iter().map(|&cost| cost as i32).collect::<Vec<i32>>();
        let (data, smooth, mut labels) = (narrow(&data), narrow(&smooth), start.clone());
        let problem = Problem {
            label_count: k as u32,
            data: &data,
            smooth: &smooth,
            label_costs: &[],
            pairs: &pairs,
        };
        let often = Duration::from_millis(500);
        let told = problem.label_watched(moves, Some(cycles), often, &mut labels, |_| {
            ControlFlow::Continue(())
        });
        assert_eq!((told, labels), (Ok(wanted), whole), "{turn}");
    }
    assert!(stopped > 500 && jumped > 50, "{stopped} {jumped}");
}

#[test]
fn a_refusal_in_a_later_move_leaves_the_labels() {
    let pairs = [Pair {
        first: 0,
        second: 1,
        weight: 1,
    }];
    let problem = Problem {
        label_count: 3,
        data: &[0, 9, 9, 9, 9, 0],
        smooth: &[0, 1, 4, 1, 0, 1, 4, 1, 0],
        label_costs: &[],
        pairs: &pairs,
    };
    let (mut labels, mut calls) = ([0; 2], 0);
    let told = problem.label_watched(Moves::Expansion, None, Duration::ZERO, &mut labels, |_| {
        calls += 1;
        ControlFlow::Continue(())
    });
    assert_eq!(
        told,
        Err(Refusal::NotRegular {
            pair: 0,
            alpha: 1,
            beta: 1
        })
    );
    assert_eq!((labels, calls), ([0, 0], 4));
    let wide = Problem {
        label_count: 257,
        ..problem
    };
    let told = wide.label_watched(
        Moves::Swap,
        None,
        Duration::ZERO,
        &mut labels,
        |_| unreachable!(),
    );
    assert_eq!(told, Err(Refusal::LabelCount));
}
