//! How many rounds the library's near(x) takes at most (M-102): over many random rows, and in the worst that a search finds.
//! Each order and count must be the second implementation's. What it prints is stored in ../expected.txt.

mod question;

use question::{Answer, Question};
use reference::generate::Dice;

/// "at most 1,000 rounds in all for any N and row" (M-102)
const MOST_ROUNDS: u32 = 1_000;
const RANDOM_ROWS: usize = 20_000;
const SEARCHES: usize = 12;
const STEPS: usize = 1_000;

/// A question and its answer.
struct Asked {
    question: Question,
    answer: Answer,
}

impl Asked {
    /// Asks the library.
    fn new(question: Question) -> Asked {
        let answer = question.answer();
        assert!(answer.rounds <= MOST_ROUNDS, "{} rounds for {question:?}", answer.rounds);
        Asked { question, answer }
    }

    /// The count, and what sort of row has it.
    fn line(&self) -> String {
        let (rounds, listed) = (self.answer.rounds, self.answer.order.len());
        let distances = self.question.distances(&self.answer);
        format!("rounds {rounds:3}  nodes listed {listed:2}  distances {distances:2}")
    }
}

/// The first of those with the most rounds.
fn worst(asked: impl Iterator<Item = Asked>) -> Asked {
    asked.reduce(|worst, next| if next.answer.rounds > worst.answer.rounds { next } else { worst }).expect("rows")
}

/// Goes from a random row by single changes, none of which may lessen the count.
fn search(dice: &mut Dice, nodes: usize) -> Asked {
    let mut here = Asked::new(Question::random(dice, nodes));
    for _ in 0..STEPS {
        let next = Asked::new(here.question.changed(dice));
        if next.answer.rounds >= here.answer.rounds {
            here = next;
        }
    }
    here
}

fn main() {
    println!(
        "The most rounds of near(x): over {RANDOM_ROWS} random rows, and by {SEARCHES} searches of {STEPS} steps."
    );
    for nodes in [1, 2, 4, 16, 63, 64] {
        let mut dice = Dice::new(nodes as u64);
        let random = worst((0..RANDOM_ROWS).map(|_| Asked::new(Question::random(&mut dice, nodes))));
        let found = worst((0..SEARCHES).map(|_| search(&mut dice, nodes)));
        println!("\nN {nodes}");
        println!("  random  {}", random.line());
        println!("  search  {}", found.line());
        println!("  found   {}", found.question);
    }
}
