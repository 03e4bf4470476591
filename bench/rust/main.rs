//! Times the proved plan call side by side with the same run by hand and with two libraries'
//! maximum flows.
//!
//! Built with `--cfg rattle` the proved call takes part; without it the others are compared alone.

mod agreement;
mod circles;
mod contestants;
mod run;

use circles::{Circle, FAMILIES, Random, any_circle};
use contestants::{CONTESTANTS, Contestant, Tables, libraries};
use run::{Answer, MEMBERS};
use std::hint::black_box;
use std::time::{Duration, Instant};

/// Where the numbers that look random start.
const SEED: u64 = 20_260_101;

/// How many circles of any size the answers are compared on, and how many of each family are timed.
const COMPARED: usize = 20_000;
const TIMED: usize = 128;

/// A batch goes over all circles of a family, again and again, for at least this long. The median
/// batch counts.
const BATCH: Duration = Duration::from_millis(4);
const BATCHES: usize = 41;

/// What is printed of two contestants' times, where both take part.
const RATIOS: [(&str, &str); 4] = [
    ("Rattle", "by hand"),
    ("Rattle", "shortcuts"),
    ("LEMON", "Rattle"),
    ("Boost", "Rattle"),
];

fn time_batch(
    contestant: &Contestant,
    circles: &[Circle],
    rounds: u32,
    tables: &mut Tables,
) -> Duration {
    let start = Instant::now();
    for _ in 0..rounds {
        for circle in circles {
            black_box(contestant.has_plan(black_box(circle), tables));
        }
    }
    start.elapsed()
}

/// The median microseconds of a plan for each contestant, and the widest spread of the middle half
/// of the batches in parts of the median. The contestants take turns, a batch each.
fn time(circles: &[Circle], tables: &mut Tables) -> (Vec<f64>, f64) {
    let mut rounds = vec![1; CONTESTANTS.len()];
    for (contestant, rounds) in CONTESTANTS.iter().zip(&mut rounds) {
        while time_batch(contestant, circles, *rounds, tables) < BATCH {
            *rounds *= 2;
        }
    }
    let mut batches = vec![Vec::with_capacity(BATCHES); CONTESTANTS.len()];
    for _ in 0..BATCHES {
        for (k, contestant) in CONTESTANTS.iter().enumerate() {
            let elapsed = time_batch(contestant, circles, rounds[k], tables);
            batches[k]
                .push(elapsed.as_secs_f64() * 1e6 / (f64::from(rounds[k]) * circles.len() as f64));
        }
    }
    let mut spread: f64 = 0.0;
    let mut medians = Vec::new();
    for mut times in batches {
        times.sort_by(f64::total_cmp);
        let median = times[BATCHES / 2];
        spread = spread.max((times[BATCHES * 3 / 4] - times[BATCHES / 4]) / median);
        medians.push(median);
    }
    (medians, spread)
}

fn place(name: &str) -> Option<usize> {
    CONTESTANTS
        .iter()
        .position(|contestant| contestant.name == name)
}

fn main() {
    libraries::keep_memory();
    let mut random = Random(SEED);
    let (mut tables, mut others) = (Tables::filled(&mut random), Tables::filled(&mut random));
    for _ in 0..COMPARED {
        agreement::on_circle(&any_circle(&mut random), &mut tables, &mut others);
    }
    agreement::on_refusals(&mut random);
    println!("All contestants agree on {COMPARED} circles of any size, and on what is refused.");

    println!(
        "Microseconds per plan, median of {BATCHES} batches over {TIMED} circles; steps are the mean:\n"
    );
    let ratios: Vec<(usize, usize)> = RATIOS
        .iter()
        .filter_map(|(over, under)| place(over).zip(place(under)))
        .collect();
    print!("{:<6} {:>3} {:>7} {:>6}", "family", "n", "plans", "steps");
    for contestant in CONTESTANTS {
        print!(" {:>9}", contestant.name);
    }
    for &(over, under) in &ratios {
        print!(
            " {:>16}",
            format!("{}/{}", CONTESTANTS[over].name, CONTESTANTS[under].name)
        );
    }
    println!();
    let mut widest: f64 = 0.0;
    for family in &FAMILIES {
        let circles: Vec<Circle> = (0..TIMED).map(|_| family.make(&mut random)).collect();
        let (mut plans, mut all_steps) = (0, 0);
        for circle in &circles {
            match agreement::on_circle(circle, &mut tables, &mut others) {
                Answer::Plan { steps } => {
                    plans += 1;
                    all_steps += steps;
                }
                Answer::Blocked { steps, .. } => all_steps += steps,
            }
        }
        let (times, spread) = time(&circles, &mut tables);
        widest = widest.max(spread);
        let mean_steps = all_steps as f64 / TIMED as f64;
        print!(
            "{:<6} {:>3} {:>7} {:>6.1}",
            family.name,
            MEMBERS,
            format!("{plans}/{TIMED}"),
            mean_steps
        );
        for time in &times {
            print!(" {time:>9.2}");
        }
        for &(over, under) in &ratios {
            print!(" {:>16.2}", times[over] / times[under]);
        }
        println!();
    }
    println!(
        "\nThe middle half of the batches spreads over at most {:.0}% of the median.",
        widest * 100.0
    );
}
