// Runs the kinds of input beside one another, each with numbers drawn from a
// seed of its own, and hands on what they counted in the order of the list.

use crate::tally::Tally;
use sides::random::Random;
use std::collections::BTreeMap;
use std::sync::{mpsc, Mutex};
use std::thread;

pub type Job = Box<dyn FnOnce(&mut Random) -> Vec<Tally> + Send>;

pub fn run(jobs: Vec<Job>, done: impl FnMut(Tally)) {
    let queue = Mutex::new(jobs.into_iter().enumerate());
    let (sender, receiver) = mpsc::channel();
    let workers = thread::available_parallelism().map_or(1, usize::from);
    thread::scope(|scope| {
        for _ in 0..workers {
            let sender = sender.clone();
            scope.spawn(|| work(&queue, sender));
        }
        drop(sender);
        hand_on(receiver, done);
    });
}

fn work(
    queue: &Mutex<impl Iterator<Item = (usize, Job)>>,
    done: mpsc::Sender<(usize, Vec<Tally>)>,
) {
    let next = || {
        queue
            .lock()
            .expect("no worker fails while it holds the queue")
            .next()
    };
    while let Some((index, job)) = next() {
        let tallies = job(&mut Random::new(index as u64));
        done.send((index, tallies))
            .expect("the receiver outlives the workers");
    }
}

fn hand_on(results: mpsc::Receiver<(usize, Vec<Tally>)>, mut done: impl FnMut(Tally)) {
    let mut waiting = BTreeMap::new();
    let mut due = 0;
    for (index, tallies) in results {
        waiting.insert(index, tallies);
        while let Some(tallies) = waiting.remove(&due) {
            tallies.into_iter().for_each(&mut done);
            due += 1;
        }
    }
}
