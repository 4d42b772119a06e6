//! Each refusal, and what it leaves.
use gco::{minimise, Moves, One, Pair, Problem, Refusal, TableProblem, Three, Two};

const DATA: [i64; 15] = [4, 6, 9, 7, 5, 6, 8, 4, 7, 9, 7, 3, 6, 8, 5];
const SMOOTH: [i64; 9] = [0, 1, 1, 1, 0, 1, 1, 1, 0];
const PAIRS: [Pair; 2] = [pair(0, 1, 3), pair(1, 2, 2)];

const fn pair(first: u32, second: u32, weight: u32) -> Pair {
    Pair {
        first,
        second,
        weight,
    }
}

fn districts() -> Problem<'static> {
    Problem {
        label_count: 3,
        data: &DATA,
        smooth: &SMOOTH,
        label_costs: &[],
        pairs: &PAIRS,
    }
}

fn refused(problem: &Problem, start: &[u32]) -> Refusal {
    let mut labels = start.to_vec();
    let told = problem
        .label(Moves::Expansion, None, &mut labels)
        .unwrap_err();
    assert_eq!(labels, start);
    assert_eq!(problem.expand(1, &mut labels).unwrap_err(), told);
    assert_eq!(problem.swap(0, 1, &mut labels).unwrap_err(), told);
    assert_eq!(labels, start);
    told
}

/// Each refusal of pairs that have tables.
#[test]
fn tables() {
    let entries = [0, 2, 4, 0, 0, 9, 1, 0];
    let problem = TableProblem {
        label_count: 2,
        data: &DATA[..6],
        tables: &entries,
        table_of: &[1, 0],
        label_costs: &[],
        pairs: &PAIRS,
    };
    let refused = |problem: TableProblem| {
        let mut labels = [0; 3];
        let told = problem
            .label(Moves::Expansion, None, &mut labels)
            .unwrap_err();
        assert_eq!(problem.expand(1, &mut labels), Err(told));
        assert_eq!(problem.swap(0, 1, &mut labels), Err(told));
        assert_eq!(labels, [0; 3]);
        told
    };
    let of = |tables| refused(TableProblem { tables, ..problem });
    assert_eq!(of(&entries[..7]), Refusal::SmoothCount);
    assert_eq!(of(&entries[..4]), Refusal::NoSuchTable { pair: 0 });
    assert_eq!(
        of(&[0, 2, 4, 0, 0, -1, 1, 0]),
        Refusal::SmoothRange { place: 5 }
    );
    let table_of = |table_of| {
        refused(TableProblem {
            table_of,
            ..problem
        })
    };
    assert_eq!(table_of(&[1]), Refusal::TableOfCount);
    assert_eq!(table_of(&[1, 2]), Refusal::NoSuchTable { pair: 1 });
    assert_eq!(
        of(&[0, 5_000_001, 4, 0, 0, 9, 1, 0]),
        Refusal::PairCostRange { pair: 1 }
    );
    let none = TableProblem {
        label_count: 0,
        ..problem
    };
    assert_eq!(refused(none), Refusal::LabelCount);
    assert_eq!(
        Refusal::PairCostRange { pair: 1 }.to_string(),
        "the weight of pair 1 times an entry of its table is above 10,000,000"
    );
}

#[test]
fn counts() {
    let start = [0; 5];
    let many = vec![0; 1_048_577];
    assert_eq!(refused(&districts(), &many), Refusal::TooManySites);
    assert_eq!(
        refused(
            &Problem {
                label_count: 0,
                ..districts()
            },
            &start
        ),
        Refusal::LabelCount
    );
    assert_eq!(
        refused(
            &Problem {
                data: &DATA[1..],
                ..districts()
            },
            &start
        ),
        Refusal::DataCount
    );
    assert_eq!(refused(&districts(), &[0; 4]), Refusal::DataCount);
    assert_eq!(
        refused(
            &Problem {
                smooth: &[],
                ..districts()
            },
            &start
        ),
        Refusal::SmoothCount
    );
    assert_eq!(
        refused(
            &Problem {
                label_costs: &[1, 2],
                ..districts()
            },
            &start
        ),
        Refusal::LabelCostCount
    );
}

#[test]
fn ranges() {
    let start = [0; 5];
    let mut data = DATA;
    data[7] = -1;
    assert_eq!(
        refused(
            &Problem {
                data: &data,
                ..districts()
            },
            &start
        ),
        Refusal::DataRange { place: 7 }
    );
    let mut smooth = SMOOTH;
    smooth[5] = 10_001;
    assert_eq!(
        refused(
            &Problem {
                smooth: &smooth,
                ..districts()
            },
            &start
        ),
        Refusal::SmoothRange { place: 5 }
    );
    let told = refused(
        &Problem {
            label_costs: &[0, -1, 0],
            ..districts()
        },
        &start,
    );
    assert_eq!(told, Refusal::LabelCostRange { label: 1 });
    assert_eq!(
        refused(&districts(), &[0, 0, 0, 3, 0]),
        Refusal::NoSuchLabel { site: 3 }
    );
    assert_eq!(
        refused(&districts(), &[0, 0, 0, 3, 0]).to_string(),
        "site 3 starts with a label that is not there"
    );
}

#[test]
fn pairs() {
    let start = [0; 5];
    let told = |one| {
        refused(
            &Problem {
                pairs: &[PAIRS[0], one],
                ..districts()
            },
            &start,
        )
    };
    assert_eq!(told(pair(0, 5, 1)), Refusal::NoSuchSite { place: 1 });
    assert_eq!(told(pair(2, 2, 1)), Refusal::SameSite { place: 1 });
    assert_eq!(told(pair(2, 3, 1_001)), Refusal::WeightRange { place: 1 });
    let many = vec![PAIRS[0]; 4_194_305];
    assert_eq!(
        refused(
            &Problem {
                pairs: &many,
                ..districts()
            },
            &start
        ),
        Refusal::TooManyPairs
    );
}

#[test]
fn moves() {
    let mut labels = [0, 2];
    let square = Problem {
        label_count: 3,
        data: &[0, 9, 9, 9, 9, 0],
        smooth: &[0, 1, 4, 1, 0, 1, 4, 1, 0],
        label_costs: &[],
        pairs: &[pair(0, 1, 1)],
    };
    let told = square
        .label(Moves::Expansion, None, &mut labels)
        .unwrap_err();
    assert_eq!(
        told,
        Refusal::NotRegular {
            pair: 0,
            alpha: 1,
            beta: 1
        }
    );
    assert_eq!(
        told.to_string(),
        "the term of pair 0 is not regular in the expansion of label 1"
    );
    assert_eq!(square.expand(3, &mut labels), Err(Refusal::NoSuchMove));
    assert_eq!(square.swap(0, 3, &mut labels), Err(Refusal::NoSuchMove));
    let costly = Problem {
        label_costs: &[0, 0, 1],
        ..square
    };
    assert_eq!(
        costly.label(Moves::Swap, Some(0), &mut labels),
        Err(Refusal::LabelCostInSwap)
    );
    assert_eq!(labels, [0, 2]);
    let told: Box<dyn std::error::Error> = Box::new(Refusal::LabelCostInSwap);
    assert_eq!(
        told.to_string(),
        "a swap, and a label costs more than 0 by itself"
    );
}

#[test]
fn terms() {
    let mut bits = [9; 3];
    let mut told = |constant, ones: &[One], twos: &[Two], threes: &[Three]| {
        let told = minimise(constant, ones, twos, threes, &mut bits).unwrap_err();
        assert_eq!(bits, [9; 3]);
        told
    };
    let one = One::new(0, [0, 1]);
    assert_eq!(told(1_000_000_001, &[], &[], &[]), Refusal::ConstantRange);
    assert_eq!(
        told(0, &[one, One::new(3, [0, 1])], &[], &[]),
        Refusal::NoSuchSite { place: 1 }
    );
    assert_eq!(
        told(0, &[one], &[Two::new(1, 1, [0; 4])], &[]),
        Refusal::SameSite { place: 1 }
    );
    assert_eq!(
        told(0, &[One::new(0, [0, i64::MIN])], &[], &[]),
        Refusal::WeightRange { place: 0 }
    );
    let irregular = Two::new(0, 2, [1, 0, 0, 0]);
    assert_eq!(
        told(0, &[one], &[irregular], &[]),
        Refusal::TermNotRegular {
            term: 1,
            fixed: None
        }
    );
    let late = Three::new(2, 1, 0, [0, 0, 1, 0, 0, 0, 0, 0]);
    let refusal = told(0, &[one], &[], &[late]);
    assert_eq!(
        refusal,
        Refusal::TermNotRegular {
            term: 1,
            fixed: Some((1, true))
        }
    );
    assert_eq!(
        refusal.to_string(),
        "term 1 is not regular where its variable 1 is 1"
    );
    assert_eq!(
        told(0, &vec![one; 8_388_609], &[], &[]),
        Refusal::TooManyPairs
    );
    assert_eq!(
        minimise(0, &[], &[], &[], &mut vec![0; 2_097_153]),
        Err(Refusal::TooManySites)
    );
}

#[test]
fn bounds() {
    let start = [0; 5];
    let mut labels = start;
    let bytes = (8 * 5 + 4 * 2) * 3;
    let low = districts().lower_bound(Some(20), Some(bytes), &mut labels);
    assert!(low.unwrap() >= 21);
    labels = start;
    assert_eq!(
        districts().lower_bound(Some(20), Some(bytes - 1), &mut labels),
        Err(Refusal::TooLarge)
    );
    let bad = Problem {
        data: &DATA[1..],
        ..districts()
    };
    assert_eq!(
        bad.lower_bound(None, None, &mut labels),
        Err(Refusal::DataCount)
    );
    assert_eq!(labels, start);
    let mut beyond = [0, 0, 3, 0, 0];
    assert_eq!(
        districts().lower_bound(None, None, &mut beyond),
        Err(Refusal::NoSuchLabel { site: 2 })
    );
}
