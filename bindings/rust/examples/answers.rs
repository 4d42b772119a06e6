//! Answers the problems of a file, a line for each, as the program does: see
//! `../tests/against_program.py`, which writes the file and reads the lines.
use gco::{minimise, Moves, One, Pair, Problem, Refusal, Three, Two};
use std::str::SplitAsciiWhitespace;

struct Given<'a>(SplitAsciiWhitespace<'a>);

impl Given<'_> {
    fn number(&mut self) -> i64 {
        self.0.next().unwrap().parse().unwrap()
    }
    fn size(&mut self) -> usize {
        self.number() as usize
    }
    fn numbers(&mut self, count: usize) -> Vec<i64> {
        (0..count).map(|_| self.number()).collect()
    }
}

fn joined(numbers: impl Iterator<Item = String>, between: &str) -> String {
    numbers.collect::<Vec<_>>().join(between)
}

fn labels(given: &mut Given) -> Result<String, Refusal> {
    let (label_count, sites) = (given.size(), given.size());
    let (data, smooth) = (
        given.numbers(sites * label_count),
        given.numbers(label_count * label_count),
    );
    let count = given.size();
    let label_costs = given.numbers(count);
    let count = given.size();
    let pairs: Vec<Pair> = given
        .numbers(3 * count)
        .chunks(3)
        .map(|of| Pair {
            first: of[0] as u32,
            second: of[1] as u32,
            weight: of[2] as u32,
        })
        .collect();
    let moves = [Moves::Expansion, Moves::Swap][given.size()];
    let cycles = given.number() as u32;
    let mut at: Vec<u32> = given.numbers(sites).iter().map(|l| *l as u32).collect();
    let problem = Problem {
        label_count: label_count as u32,
        data: &data,
        smooth: &smooth,
        label_costs: &label_costs,
        pairs: &pairs,
    };
    let run = problem.label(moves, Some(cycles), &mut at)?;
    let own = match label_costs.len() {
        0 => String::new(),
        _ => format!(" label {}", run.label),
    };
    let bound = match run.bound {
        Some((least, most)) => format!("{least} {}", 2 * most),
        None => "none".to_string(),
    };
    Ok(format!(
        "energy {} data {} smooth {}{own} labels {} bound {bound}",
        run.energy(),
        run.data,
        run.smooth,
        joined(at.iter().map(u32::to_string), " ")
    ))
}

fn variables(given: &mut Given) -> Result<String, Refusal> {
    let (count, constant) = (given.size(), given.number());
    let (mut ones, mut twos, mut threes) = (Vec::new(), Vec::new(), Vec::new());
    for _ in 0..given.size() {
        let size = given.size();
        let on: Vec<u32> = given.numbers(size).iter().map(|x| *x as u32).collect();
        let at = given.numbers(1 << size);
        match on[..] {
            [x] => ones.push(One::new(x, at.try_into().unwrap())),
            [x, y] => twos.push(Two::new(x, y, at.try_into().unwrap())),
            [x, y, z] => threes.push(Three::new(x, y, z, at.try_into().unwrap())),
            _ => panic!("a term of {size} variables"),
        }
    }
    let mut assignment = vec![0; count];
    let value = minimise(constant, &ones, &twos, &threes, &mut assignment)?;
    let digits = joined(assignment.iter().map(u8::to_string), "");
    Ok(format!("minimum {value} assignment {digits}"))
}

/// The program's line. Of pairs and terms some numbers are other ones than `gco.h` has.
fn line_of(refusal: Refusal, of_labels: bool) -> String {
    let of = |labels, terms| if of_labels { labels } else { terms };
    match refusal {
        Refusal::NoSuchSite { place } => format!("{} {place}", of("10 pair", "16 term")),
        Refusal::SameSite { place } => format!("{} {place}", of("12 pair", "17 term")),
        Refusal::WeightRange { place } => format!("{} {place}", of("14 pair", "18 term")),
        Refusal::NoSuchLabel { site } => format!("11 site {site}"),
        Refusal::DataRange { place } => format!("15 data {place}"),
        Refusal::ConstantRange => "18 constant".to_string(),
        Refusal::TermNotRegular { term, fixed: None } => format!("20 term {term}"),
        Refusal::TermNotRegular {
            term,
            fixed: Some((variable, value)),
        } => format!("20 term {term} fixed {variable} at {}", u8::from(value)),
        Refusal::NotRegular { pair, alpha, beta } if alpha == beta => {
            format!("24 pair {pair} alpha {alpha}")
        }
        Refusal::NotRegular { pair, alpha, beta } => {
            format!("24 pair {pair} alpha {alpha} beta {beta}")
        }
        Refusal::LabelCostInSwap => "27".to_string(),
        other => other.to_string(),
    }
}

fn main() {
    let file = std::env::args().nth(1).expect("a file of problems");
    for line in std::fs::read_to_string(file).unwrap().lines() {
        let mut given = Given(line.split_ascii_whitespace());
        let of_labels = given.number() == 1;
        let answer = if of_labels {
            labels(&mut given)
        } else {
            variables(&mut given)
        };
        match answer {
            Ok(said) => println!("{said}"),
            Err(refusal) => println!("refused {}", line_of(refusal, of_labels)),
        }
    }
}
