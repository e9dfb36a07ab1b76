//! How far ends climb in random sheets of nested tasks and in random lists: the steps counted anew in another way, and
//! what such sheets bring up.

use std::collections::{BTreeMap, BTreeSet};

use second::nested::nested_sheet;
use second::steer::random_list;
use second::*;

const MAIN: u64 = 2;
const DESTROY: u64 = 8;
const END: u64 = 12;

fn sheets() -> impl Iterator<Item = Vec<u8>> {
    (500..502).flat_map(|seed| (0..120).map(move |index| nested_sheet(seed, index)))
}

/// The task and its ancestors, main last.
fn line(session: &Session, task: u64) -> Vec<u64> {
    let mut line = vec![task];
    while let Some(creator) = session.task(line[line.len() - 1]).map(|task| task.creator).filter(|task| *task != 0) {
        line.push(creator);
    }
    line
}

/// The tasks that are live or have a live descendant: the live ones, each with all its ancestors.
fn standing(session: &Session) -> BTreeSet<u64> {
    let mut standing = BTreeSet::new();
    for (handle, _) in session.tasks().filter(|(_, task)| task.is_live()) {
        // Where one stands already, so do those above it.
        line(session, handle).into_iter().take_while(|task| standing.insert(*task)).count();
    }
    standing
}

/// The task of an accepted operation that climbs.
fn climber(session: &Session, operation: &Operation, answer: Answer) -> Option<u64> {
    let named = match operation.code {
        END => operation.fields[0],
        DESTROY => operation.fields[1],
        _ => return None,
    };
    (answer.refused == 0 && session.task(named).is_some()).then_some(named)
}

/// "The count is exactly those moves of the definition and never more than the task's ancestors."
#[track_caller]
fn check_steps(session: &Session, task: u64, climbed: u64) {
    let (line, standing) = (line(session, task), standing(session));
    let moves = line.iter().take_while(|task| **task != MAIN && !standing.contains(task)).count();
    assert_eq!(climbed, moves as u64);
    assert!(climbed < line.len() as u64);
}

/// What an accepted call answers that climbs nowhere: what it made, as before E5.
#[track_caller]
fn check_made(before: &Session, operation: &Operation, made: u64, after: &Session) {
    let objects = after.object_count() - before.object_count();
    let wanted = match operation.code {
        1..=4 | 13 => before.object_count() + 1,
        5 if after.link_count() > before.link_count() => after.link_count(),
        _ => 0,
    };
    assert_eq!(made, wanted, "{operation:?}");
    assert_eq!(objects > 0, matches!(operation.code, 1..=4 | 13));
}

fn check_call(before: &Session, operation: &Operation, answer: Answer, after: &Session) {
    match climber(after, operation, answer) {
        Some(task) => check_steps(after, task, answer.made),
        None if answer.refused == 0 => check_made(before, operation, answer.made, after),
        None => assert_eq!(answer.made, 0),
    }
}

#[test]
fn steps_in_nested_sheets() {
    for sheet in sheets().take(120) {
        let mut session = Session::fresh();
        for operation in parse_sheet(&sheet).0 {
            let before = session.clone();
            let answer = session.apply(&operation);
            check_call(&before, &operation, answer, &session);
        }
    }
}

#[test]
fn steps_in_lists_of_single_calls() {
    for edition in [Edition::First, Edition::Second] {
        for seed in 600..630 {
            let mut list = random_list(seed, 1_000).in_edition(edition);
            for _ in 0..1_000 {
                let before = list.session.clone();
                let (operation, answer) = list.next_call();
                check_call(&before, &operation, answer, &list.session);
            }
        }
    }
}

#[test]
fn nested_sheets_are_whole_and_stay_sound() {
    let mut firsts = [0; 3];
    for (index, sheet) in sheets().enumerate() {
        assert!(sheet.len() <= 32_768);
        let (operations, ending) = parse_sheet(&sheet);
        assert_eq!(ending, Ending::Whole);
        firsts[sheet[0] as usize] += 1;
        // Soundness takes long in sheets that are not short.
        if index % 4 == 2 {
            let mut session = Session::fresh();
            for operation in operations {
                session.apply(&operation);
                assert!(session.is_sound(), "{operation:?}");
            }
        }
    }
    assert!(firsts[1] > 20 && firsts[2] > 20, "{firsts:?}");
    assert_eq!(nested_sheet(7, 1), nested_sheet(7, 1));
}

/// How often something came up, by name.
#[derive(Default)]
struct Shown {
    counts: BTreeMap<String, u64>,
}

fn shown_steps(steps: u64) -> &'static str {
    match steps {
        0 => "0",
        1 => "1",
        2 => "2",
        3 => "3",
        4..=9 => "4 to 9",
        10..=99 => "10 to 99",
        _ => "100 and more",
    }
}

fn fired_outputs(session: &Session) -> u64 {
    let fired = |event: &Event| event.kind == EventType::Output && event.state == EventState::Fired;
    session.objects.iter().filter(|object| matches!(object, Object::Event(event) if fired(event))).count() as u64
}

impl Shown {
    fn show(&mut self, name: String, shown: bool) {
        *self.counts.entry(name).or_default() += u64::from(shown);
    }

    /// An accepted end, or destroying of a task, with the steps that it climbed.
    fn count(&mut self, before: &Session, code: u64, task: u64, climbed: u64, after: &Session) {
        let what = if code == END { "end" } else { "destroy" };
        self.show(format!("{what} climbs {}", shown_steps(climbed)), true);
        self.count_stop(what, after, line(after, task)[climbed as usize], climbed);
        let passed = &line(after, task)[..climbed as usize];
        let finish = passed.iter().filter(|task| after.task(**task).is_some_and(|task| task.finish)).count();
        self.show(format!("{what} passes finish tasks and plain ones"), finish > 0 && finish < passed.len());
        let fired = fired_outputs(after) - fired_outputs(before);
        self.show(format!("{what} fires 2 outputs or more"), fired >= 2);
        self.show(format!("{what} fires 10 outputs or more"), fired >= 10);
    }

    fn count_stop(&mut self, what: &str, after: &Session, top: u64, climbed: u64) {
        let live = after.task(top).is_some_and(|task| task.is_live());
        let stop = match (top == MAIN, live) {
            _ if climbed == 0 && top == MAIN => "main itself",
            _ if climbed == 0 => "itself, with a live descendant",
            (true, true) => "main, which is live",
            (true, false) => "main, which has ended",
            (false, true) => "a live creator",
            (false, false) => "one that has ended, with a live descendant elsewhere",
        };
        self.show(format!("{what} stops at {stop}"), true);
        self.show(format!("{what} stops at {stop} after 3 steps or more"), climbed >= 3);
    }
}

#[test]
fn what_nested_sheets_show() {
    let (mut shown, mut census) = (Shown::default(), Census::default());
    for sheet in sheets() {
        let mut session = Session::fresh();
        for operation in parse_sheet(&sheet).0 {
            let before = session.clone();
            let answer = session.apply(&operation);
            census.count(&operation, answer);
            if let Some(task) = climber(&session, &operation, answer) {
                shown.count(&before, operation.code, task, answer.made, &session);
            } else if matches!(operation.code, END | DESTROY) {
                shown.show(format!("operation {} gives {}", operation.code, answer.refused), true);
            }
        }
    }
    // Those that start at 0 steps never come to 3.
    shown.counts.retain(|name, _| !(name.contains("itself") && name.ends_with("more")));
    shown.counts.iter().for_each(|(name, count)| println!("{count:6} {name}"));
    assert!(shown.counts.values().all(|count| *count >= 3));
    assert_eq!(shown.counts.len(), 44);
    census.check_codes([1, 2, 3, 5, 8, 9, 10, 11, 12], [8, 9, 10, 11, 16, 20]);
}
