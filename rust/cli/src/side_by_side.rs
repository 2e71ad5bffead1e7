//! Work on many inputs by several threads, with the answers in order.

use std::collections::BTreeMap;
use std::sync::atomic::{AtomicUsize, Ordering};
use std::sync::mpsc::channel;
use std::thread;

/// Works on inputs 0 to count - 1, as many at once as there are jobs. As each is done it hands on how many are, and the answers that are next
/// in the order of the inputs, which may be none. Where handing on fails no further input is begun.
pub fn in_order<T: Send, E>(
    count: usize,
    jobs: usize,
    work: impl Fn(usize) -> T + Sync,
    mut hand_on: impl FnMut(usize, Vec<(usize, T)>) -> Result<(), E>,
) -> Result<(), E> {
    let next = AtomicUsize::new(0);
    let (sender, answers) = channel();
    thread::scope(|scope| {
        for _ in 0..jobs.min(count) {
            let (sender, next, work) = (sender.clone(), &next, &work);
            scope.spawn(move || loop {
                let i = next.fetch_add(1, Ordering::Relaxed);
                if i >= count || sender.send((i, work(i))).is_err() {
                    break;
                }
            });
        }
        drop(sender);
        let (mut waiting, mut due) = (BTreeMap::new(), 0);
        for (done, (i, answer)) in (1..).zip(answers) {
            waiting.insert(i, answer);
            let mut ready = Vec::new();
            while let Some(answer) = waiting.remove(&due) {
                ready.push((due, answer));
                due += 1;
            }
            if let Err(error) = hand_on(done, ready) {
                next.store(count, Ordering::Relaxed);
                return Err(error);
            }
        }
        Ok(())
    })
}

#[cfg(test)]
mod tests {
    use super::*;
    use std::time::Duration;

    #[test]
    fn answers_come_in_order_whichever_is_done_first() {
        let mut handed = Vec::new();
        // the first ones take longest
        let work = |i: usize| thread::sleep(Duration::from_millis(20 - i as u64));
        let done: Result<(), ()> = in_order(20, 4, work, |_, ready| {
            handed.extend(ready.into_iter().map(|(i, ())| i));
            Ok(())
        });
        assert_eq!((done, handed), (Ok(()), (0..20).collect::<Vec<usize>>()));
    }

    #[test]
    fn nothing_is_begun_once_handing_on_fails() {
        let begun = AtomicUsize::new(0);
        let work = |_| begun.fetch_add(1, Ordering::Relaxed);
        let failed = in_order(1_000_000, 2, work, |done, _| if done < 10 { Ok(()) } else { Err(done) });
        assert_eq!(failed, Err(10));
        assert!(begun.into_inner() < 1_000_000);
    }
}
