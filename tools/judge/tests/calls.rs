//! What docs/semantics.md says of single calls, limits and drops, and of records of honest runs.

use judge::machine::{Run, Shape, random_run};
use judge::record::{Style, record};
use judge::rng::Rng;
use judge::rule::Rule;
use judge::text::{Event, Word};
use judge::verdict::{Verdict as TextVerdict, call, judge};
use judge::watch::{Conviction, Counts, Fault, Notice, Performed, Refusal, Verdict, Watch};

fn watch(rule: &str, threads: u64) -> Watch {
    Watch::new(Rule::named(rule.as_bytes()).unwrap(), threads).unwrap()
}

fn refused<T>(refusal: Refusal) -> Result<T, Fault> {
    Err(Fault::Refused(refusal))
}

fn convicted<T>(law: u64, thread: u64, number: u64, other: u64) -> Result<T, Fault> {
    Err(Fault::Convicted(Conviction { law, thread, number, other }))
}

#[test]
fn watches_have_one_to_four_threads() {
    let made = |threads| Watch::new(Rule::named(b"sc").unwrap(), threads).map(|_| ());
    assert_eq!(made(0), Err(Refusal::Threads));
    assert_eq!(made(1), Ok(()));
    assert_eq!(made(4), Ok(()));
    assert_eq!(made(5), Err(Refusal::Threads));
}

#[test]
fn outstanding_operations_have_a_limit() {
    let mut watch = watch("sc", 2);
    for number in 0..64 {
        assert_eq!(watch.spare(1), Ok(64 - number));
        assert_eq!(watch.commit(1, 2, 9999, 0), Ok(number));
    }
    assert_eq!(watch.spare(1), Ok(0));
    assert_eq!(watch.spare(2), Err(Refusal::NoThread));
    assert_eq!(watch.commit(1, 0, 0, 0), refused(Refusal::Limit(1)));
    assert_eq!(watch.commit(1, 0, 512, 0), refused(Refusal::NoPlace));
    assert_eq!(watch.commit(0, 0, 0, 0), Ok(0));
}

#[test]
fn commits_have_a_limit() {
    let mut watch = watch("sc", 1);
    for number in 0..1_000_000 {
        assert_eq!(watch.commit(0, 2, 0, 0), Ok(number));
        assert_eq!(watch.perform(0, number, 0), Ok(Performed::Other));
    }
    assert_eq!(watch.commit(0, 2, 0, 0), refused(Refusal::Limit(2)));
}

#[test]
fn begins_have_a_limit() {
    let mut watch = watch("sc", 2);
    for time in 0..1_000_000 {
        assert_eq!(watch.begin(0, 0, 0, 0, time), Ok(()));
        let notice = watch.end(0, 0, 0, time + 1).unwrap();
        assert_eq!(watch.report(notice), Ok(()));
        watch.advance(1, time + 1).unwrap();
        watch.settle().unwrap();
    }
    assert_eq!(watch.begin(1, 0, 0, 0, 2_000_000), refused(Refusal::Limit(4)));
    assert_eq!(watch.close(), Ok(()));
    assert_eq!(watch.counts(), Counts { open: 0, owed: 0, waiting: 0, judged: 1_000_000, dropped: 0 });
}

#[test]
fn open_epochs_and_owed_notices_have_limits() {
    let mut watch = watch("sc", 2);
    for place in 0..32 {
        watch.begin(0, 0, place, 0, 0).unwrap();
    }
    assert_eq!(watch.begin(0, 0, 40, 0, 0), refused(Refusal::Limit(3)));
    assert_eq!(watch.begin(0, 0, 4, 0, 0), refused(Refusal::PlaceInUse));
    watch.begin(1, 1, 40, 0, 0).unwrap();
    let notices: Vec<Notice> = (0..32).map(|place| watch.end(0, place, 0, 1).unwrap()).collect();
    assert_eq!(watch.end(1, 40, 5, 0), refused(Refusal::Limit(5)));
    assert_eq!(watch.end(1, 41, 0, 1), refused(Refusal::NotOpen));
    assert_eq!(watch.counts(), Counts { open: 1, owed: 32, waiting: 0, judged: 0, dropped: 0 });
    for notice in notices {
        assert_eq!(watch.report(notice), Ok(()));
    }
    assert_eq!(watch.end(1, 40, 5, 0), convicted(25, 1, 40, 0));
}

#[test]
fn waiting_notices_have_a_limit_and_the_notice_comes_back() {
    let mut watch = watch("sc", 2);
    for time in 0..128 {
        watch.begin(0, 0, 0, 0, time).unwrap();
        let notice = watch.end(0, 0, 0, time + 1).unwrap();
        watch.report(notice).unwrap();
    }
    watch.begin(0, 0, 0, 0, 128).unwrap();
    let notice = watch.end(0, 0, 0, 129).unwrap();
    let (refusal, notice) = watch.report(notice).unwrap_err();
    assert_eq!((refusal, notice.number()), (Refusal::Limit(6), 128));
    watch.advance(1, 1).unwrap();
    assert_eq!(watch.settle(), Ok(1));
    assert_eq!(watch.report(notice), Ok(()));
}

#[test]
fn drops_convict_a_running_watch_only() {
    let mut watch = watch("sc", 1);
    for place in 3..6 {
        watch.begin(0, 0, place, 0, 0).unwrap();
    }
    let mut notices: Vec<Notice> = (3..6).map(|place| watch.end(0, place, 0, 1).unwrap()).collect();
    assert_eq!(watch.drop_notice(notices.remove(1)), convicted(29, 0, 1, 4));
    assert_eq!(watch.drop_notice(notices.remove(1)), Ok(()));
    assert_eq!(watch.verdict(), Verdict::Convicted(Conviction { law: 29, thread: 0, number: 1, other: 4 }));
    assert_eq!(watch.report(notices.remove(0)).unwrap_err().0, Refusal::Convicted);
    assert_eq!(watch.counts(), Counts { open: 0, owed: 1, waiting: 0, judged: 0, dropped: 2 });
    assert_eq!(watch.settle(), refused(Refusal::Convicted));
}

#[test]
fn notices_of_another_watch_count_by_their_number() {
    let (mut one, mut other) = (watch("sc", 1), watch("sc", 1));
    for watch in [&mut one, &mut other] {
        watch.begin(0, 0, 0, 0, 0).unwrap();
    }
    let strange = other.end(0, 0, 0, 1).unwrap();
    let (refusal, strange) = one.report(strange).unwrap_err();
    assert_eq!(refusal, Refusal::NotOwed);
    let own = one.end(0, 0, 0, 1).unwrap();
    assert_eq!(one.report(strange), Ok(()));
    assert_eq!(one.drop_notice(own), refused(Refusal::NotOwed));
    assert_eq!(one.verdict(), Verdict::Running);
    assert_eq!(one.close(), Ok(()));
    assert_eq!(one.close(), refused(Refusal::Closed));
}

#[test]
fn settles_judge_what_begins_before_the_safe_time() {
    let mut watch = watch("sc", 2);
    watch.begin(0, 0, 0, 0, 5).unwrap();
    let notice = watch.end(0, 0, 0, 6).unwrap();
    watch.report(notice).unwrap();
    watch.advance(1, 5).unwrap();
    assert_eq!(watch.settle(), Ok(0));
    watch.advance(1, 6).unwrap();
    assert_eq!(watch.settle(), Ok(1));
}

#[test]
fn a_settle_that_convicts_keeps_what_it_judged() {
    let mut watch = watch("sc", 1);
    for (place, value) in [(0, 0), (1, 8), (2, 0)] {
        watch.begin(0, 0, place, value, place).unwrap();
    }
    for (place, value) in [(0, 0), (1, 8), (2, 0)] {
        let notice = watch.end(0, place, value, 9).unwrap();
        watch.report(notice).unwrap();
    }
    assert_eq!(watch.settle(), convicted(28, 0, 1, 0));
    assert_eq!(watch.counts(), Counts { open: 0, owed: 0, waiting: 2, judged: 1, dropped: 0 });
}

#[test]
fn performs_tell_where_a_value_came_from() {
    let mut watch = watch("tso", 1);
    watch.begin(0, 1, 3, 4, 0).unwrap();
    for (class, value) in [(0, 4), (1, 7), (0, 7)] {
        watch.commit(0, class, 3, value).unwrap();
    }
    assert_eq!(watch.perform(0, 0, 1), Ok(Performed::FromCopy));
    assert_eq!(watch.perform(0, 2, 2), Ok(Performed::FromStore));
    assert_eq!(watch.perform(0, 1, 2), Ok(Performed::Other));
    assert_eq!(watch.perform(0, 1, 2), refused(Refusal::NotOutstanding));
    assert_eq!(watch.end(0, 3, 7, 2), convicted(25, 0, 3, 2));
}

fn small_run(rng: &mut Rng) -> Run {
    let steps = rng.between(1, 80) as usize;
    let shape = Shape::random(rng, steps);
    random_run(rng, &shape)
}

#[test]
fn honest_records_are_clean() {
    for seed in 0..4000 {
        let rng = &mut Rng::part(seed, 2);
        let run = small_run(rng);
        let style = Style::random(rng);
        let trace = record(rng, &run, style).to_string();
        assert!(matches!(judge(trace.as_bytes()), TextVerdict::Clean { .. }), "{trace}");
    }
}

#[test]
fn honest_records_with_late_reports_are_clean() {
    for seed in 0..4000 {
        let rng = &mut Rng::part(seed, 3);
        let run = small_run(rng);
        let style = Style::random(rng);
        let trace = record(rng, &run, style);
        let mut watch = watch(&trace.rule, trace.threads);
        let mut kept: Vec<Notice> = Vec::new();
        for event in &trace.events {
            let all = event.word == Word::Close || kept.len() == 32;
            while !kept.is_empty() && (all || rng.one_in(4)) {
                let at = rng.index(kept.len());
                watch.report(kept.swap_remove(at)).unwrap();
            }
            let Event { thread, place, value, time, .. } = *event;
            match event.word {
                Word::End => kept.push(watch.end(thread, place, value, time).unwrap()),
                _ => call(&mut watch, event).unwrap(),
            }
        }
        assert_eq!(watch.verdict(), Verdict::Clean);
    }
}
