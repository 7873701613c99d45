//! Several threads with one sheet and buffers of their own.
use crate::draw::{channel, sheet_of, Draw};
use cazdrob::{Assignment, Searcher};
use std::sync::Barrier;
use std::thread;

#[test]
fn threads_that_share_a_sheet_agree() {
    let mut draw = Draw::new(51);
    let sheets: Vec<(Vec<u8>, Result<Assignment, u32>)> = (0..200)
        .map(|_| {
            let (length, p, q) = (draw.between(8, 20), draw.between(1, 8), draw.between(1, 8));
            let (channel, _) = channel(&mut draw, length, p, q);
            let wanted = channel.best().map(|(density, columns)| Assignment { density, columns }).ok_or(11);
            (sheet_of(&channel, false), wanted)
        })
        .collect();
    assert!(sheets.iter().filter(|(_, wanted)| wanted.is_ok()).count() > 100);
    const THREADS: usize = 4;
    let together = Barrier::new(THREADS);
    let searched: usize = thread::scope(|scope| {
        let search_all = || {
            let mut searcher = Searcher::new();
            for (sheet, wanted) in &sheets {
                together.wait();
                for _ in 0..20 {
                    assert_eq!(&searcher.assign(sheet).map_err(|r| r.number()), wanted);
                    if let Ok(best) = wanted {
                        assert_eq!(cazdrob::measure(sheet, &best.columns), Ok(best.density));
                    }
                }
            }
            sheets.len() * 20
        };
        let threads: Vec<_> = (0..THREADS).map(|_| scope.spawn(search_all)).collect();
        threads.into_iter().map(|thread| thread.join().unwrap()).sum()
    });
    assert_eq!(searched, THREADS * 200 * 20);
}
