//! What the wrapper adds: the numbers' names and a searcher that is used again.
use crate::draw::{channel, sheet_of, Draw};
use cazdrob::{Refusal, Searcher};

#[test]
fn refusals_have_their_numbers() {
    use Refusal::*;
    let out = OutOfRange { amount: 1 };
    let all = [Short, Mark, Length, Count, Layout, Net, Distance, Beyond, Columns, Cells, NoAssignment, ListLength, NotAllowed, out];
    let others = [(SheetBuffer, 9), (SpanBuffer, 9), (Module, 16), (Edge, 17), (TwoNets, 18), (Circle { net: 1 }, 19)];
    for (refusal, number) in all.into_iter().zip(1..).chain(others) {
        assert_eq!(refusal.number(), number);
        assert!(refusal.to_string().starts_with(&format!("refused {number}: ")));
    }
}

#[test]
fn an_amount_in_words() {
    let rows = [(-5, "5 columns too close"), (-1, "1 column too close"), (1, "1 column too far apart"), (62, "62 columns too far apart")];
    for (amount, words) in rows {
        assert_eq!(Refusal::OutOfRange { amount }.to_string(), format!("refused 14: a distance is out of range, {words}"));
    }
}

#[test]
fn no_mark_in_words() {
    assert_eq!(Refusal::Mark.to_string(), "refused 2: the last two bytes are neither CP nor CQ");
}

#[test]
fn a_circle_in_words() {
    let words = "refused 19: the vertical constraints have a circle, with net 65535 on it";
    assert_eq!(Refusal::Circle { net: 65_535 }.to_string(), words);
}

/// Small sheets after large ones, refused ones between them, and column buffers that are too short.
#[test]
fn a_searcher_is_used_again() {
    let mut draw = Draw::new(61);
    let mut used = Searcher::new();
    let (mut found, mut too_short) = (0, 0);
    for _ in 0..2_000 {
        let length = draw.of(&[1, 3, 12, 30]);
        let (p, q) = (draw.between(0, 6), draw.between(0, 6));
        let (channel, _) = channel(&mut draw, length, p, q);
        let sheet = sheet_of(&channel, draw.once_in(2));
        let answer = used.assign(&sheet);
        assert_eq!(answer, Searcher::default().assign(&sheet));
        assert_eq!(used.assign(&sheet[1..]).unwrap_err(), cazdrob::check(&sheet[1..]).unwrap_err());
        if let Ok(best) = answer {
            assert_eq!(channel.measure(&best.columns), Ok(best.density));
            found += 1;
            if p + q > 0 {
                let mut columns = vec![99; p + q - 1];
                assert_eq!(used.search(&sheet, &mut columns), Err(Refusal::Columns));
                assert!(columns.iter().all(|column| *column == 99));
                too_short += 1;
            }
        }
    }
    assert!(found > 1_000 && too_short > 1_000);
}
