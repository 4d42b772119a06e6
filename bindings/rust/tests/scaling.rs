//! Grids by their definition, and costs with fractions against the whole ones that they stand for.
use gco::{grid_pairs, scale, Moves, Neighbours, Pair, Problem, Refusal, Unscalable};

fn below(state: &mut u64, bound: u64) -> u64 {
    *state ^= *state << 13;
    *state ^= *state >> 7;
    *state ^= *state << 17;
    (*state >> 11) % bound
}

#[test]
fn grids_have_each_two_neighbours_once() {
    for (width, height) in [(0u32, 3u32), (1, 1), (1, 4), (4, 1), (2, 2), (3, 2), (2, 5)] {
        for (neighbours, reach) in [(Neighbours::Four, 1), (Neighbours::Eight, 2)] {
            let mut wanted = Vec::new();
            for first in 0..width * height {
                for second in first + 1..width * height {
                    let (x, y) = (first % width, first / width);
                    let (across, down) = (x.abs_diff(second % width), second / width - y);
                    if across <= 1 && down <= 1 && across + down <= reach {
                        wanted.push((first, second));
                    }
                }
            }
            let pairs = grid_pairs(width, height, neighbours, |p, q| p + 10 * q).unwrap();
            let mut found: Vec<_> = pairs.iter().map(|pair| (pair.first, pair.second)).collect();
            assert!(found.windows(2).all(|two| two[0].0 <= two[1].0));
            found.sort_unstable();
            assert_eq!(found, wanted, "{width} {height} {neighbours:?}");
            assert!(pairs
                .iter()
                .all(|pair| pair.weight == pair.first + 10 * pair.second));
        }
    }
    assert_eq!(
        grid_pairs(1025, 1024, Neighbours::Four, |_, _| 1),
        Err(Refusal::TooManySites)
    );
    assert_eq!(
        grid_pairs(65536, 65537, Neighbours::Four, |_, _| 1),
        Err(Refusal::TooManySites)
    );
}

#[test]
fn fractions_are_the_whole_problem() {
    let mut state = 7;
    for turn in 0..300 {
        let (sites, labels) = (
            1 + below(&mut state, 6) as u32,
            1 + below(&mut state, 3) as u32,
        );
        let data: Vec<i64> = (0..sites * labels)
            .map(|_| below(&mut state, 13) as i64)
            .collect();
        let smooth: Vec<i64> = (0..labels * labels)
            .map(|at| i64::from(at / labels != at % labels) * 2)
            .collect();
        let label_costs: Vec<i64> = (0..labels).map(|_| below(&mut state, 4) as i64).collect();
        let pairs: Vec<Pair> = (1..sites)
            .map(|site| Pair {
                first: site - 1,
                second: site,
                weight: below(&mut state, 5) as u32,
            })
            .collect();
        let whole = Problem {
            label_count: labels,
            data: &data,
            smooth: &smooth,
            label_costs: &label_costs,
            pairs: &pairs,
        };
        let mut wanted = vec![0; sites as usize];
        let told = whole.label(Moves::Expansion, None, &mut wanted).unwrap();
        // in eighths, the smooth costs by a half and the weights by a quarter, and 3 below each
        // data cost
        let shift = if turn % 2 == 0 { 0.0 } else { -3.0 };
        let parts = |costs: &[i64], part: f64| -> Vec<f64> {
            costs.iter().map(|&cost| cost as f64 * part).collect()
        };
        let own: Vec<f64> = data.iter().map(|&cost| cost as f64 / 8.0 + shift).collect();
        let weighed: Vec<_> = pairs
            .iter()
            .map(|pair| (pair.first, pair.second, f64::from(pair.weight) / 4.0))
            .collect();
        let scaled = scale(
            labels,
            &own,
            &parts(&smooth, 0.5),
            &parts(&label_costs, 0.125),
            &weighed,
        )
        .unwrap();
        let mut labelled = vec![0; sites as usize];
        let found = scaled
            .problem()
            .label(Moves::Expansion, None, &mut labelled)
            .unwrap();
        assert!(
            scaled.exact && labelled == wanted,
            "{turn} {labelled:?} {wanted:?}"
        );
        let energy = told.energy() as f64 / 8.0 + shift * f64::from(sites);
        assert_eq!(scaled.energy(found.energy()), energy, "{turn}");
    }
}

#[test]
fn thirds_are_near_and_told() {
    let third = 1.0 / 3.0;
    let smooth = [0.0, third, third, 0.0];
    let scaled = scale(2, &[third, 2.0, 1.0, 0.0], &smooth, &[], &[(0, 1, third)]).unwrap();
    assert!(!scaled.exact && scaled.scale > 1e6);
    let mut labels = [0; 2];
    let told = scaled
        .problem()
        .label(Moves::Expansion, None, &mut labels)
        .unwrap();
    assert_eq!(labels, [0, 1]);
    assert!((scaled.energy(told.energy()) - (third + third * third)).abs() < 1e-3);
}

#[test]
fn what_is_no_cost_is_named() {
    let nan = f64::NAN;
    assert_eq!(
        scale(1, &[0.0, nan], &[0.0], &[], &[]).err(),
        Some(Unscalable::Data { place: 1 })
    );
    let wrong = scale(1, &[], &[f64::INFINITY], &[], &[]).err();
    assert_eq!(wrong, Some(Unscalable::Smooth { place: 0 }));
    let wrong = scale(1, &[], &[0.0], &[-0.5], &[]).err();
    assert_eq!(wrong, Some(Unscalable::LabelCost { label: 0 }));
    let wrong = scale(1, &[], &[0.0], &[], &[(0, 1, 0.5), (0, 1, -0.5)]).err();
    assert_eq!(wrong, Some(Unscalable::Weight { place: 1 }));
    let words = wrong.unwrap().to_string();
    assert_eq!(words, "the weight of pair 1 is no finite number from 0 on");
}
