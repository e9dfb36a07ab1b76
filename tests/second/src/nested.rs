//! Random sheets of nested tasks, for the steps that ends climb: request E5 of document 02.

use crate::edition::Edition;
use crate::object::{Task, TaskState};
use crate::operation::{Answer, Operation};
use crate::random::Random;
use crate::record::write_record;
use crate::session::{Session, MAX_OBJECTS};
use crate::sheet::MAX_SHEET;

/// What a sheet is for; sheet i of a seed has theme i modulo their number.
#[derive(Clone, Copy, Debug, PartialEq, Eq)]
enum Theme {
    /// A few tasks in at most 120 bytes.
    Short,
    /// Tasks within tasks as deep as there is room for, and then their ends.
    Deep,
    /// Tasks are made and ended by turns.
    Turns,
}

const THEMES: [Theme; 8] =
    [Theme::Turns, Theme::Deep, Theme::Short, Theme::Turns, Theme::Deep, Theme::Turns, Theme::Short, Theme::Turns];

/// Sheet `index` of a seed: always the same bytes, at most 32,768 of them. One of four is of edition 2.
pub fn nested_sheet(seed: u64, index: u64) -> Vec<u8> {
    let mut random = Random::part(seed, index);
    let edition = if random.percent(25) { Edition::Second } else { Edition::First };
    let theme = THEMES[index as usize % THEMES.len()];
    let length = match theme {
        Theme::Short => 60 + random.below(61),
        Theme::Deep => MAX_SHEET as u64,
        Theme::Turns => 300 + random.below(8_000),
    };
    let mut nest = Nest::new(edition, random, length as usize);
    nest.open(theme);
    match theme {
        Theme::Short => nest.take_turns(3),
        Theme::Deep => nest.go_deep(),
        Theme::Turns => {
            let most = nest.random.among(&[4, 12, 40, 100]);
            nest.take_turns(most);
        }
    }
    nest.sheet
}

/// The template of tasks without pre-slots, which are resolved as soon as they are made.
const SLOTLESS: u64 = 3;

const MAIN: u64 = 2;

/// A sheet in the making, and the session after its records.
struct Nest {
    session: Session,
    edition: Edition,
    random: Random,
    sheet: Vec<u8>,
    length: usize,
    /// A template of tasks with one pre-slot, and an event to link outputs to; 0 without one.
    waiting: u64,
    event: u64,
    /// The task that ends last, so that there is somebody to call: main, or one that main made beside the others.
    keeper: u64,
}

/// How tasks are made for a while, each number so many of a hundred.
struct Growth {
    /// Made by the newest task that runs; the others by any.
    inner: u64,
    finish: u64,
    output: u64,
    /// With a pre-slot, so that they wait.
    waiting: u64,
    /// Granted and started at once.
    started: u64,
}

/// Which of the running tasks ends next.
#[derive(Clone, Copy, Debug, PartialEq, Eq)]
enum Order {
    OutsideIn,
    InsideOut,
    Any,
}

fn is_running(task: &Task) -> bool {
    task.state == TaskState::Running
}

/// May be destroyed.
fn is_at_rest(task: &Task) -> bool {
    matches!(task.state, TaskState::Waiting | TaskState::Resolved)
}

impl Nest {
    fn new(edition: Edition, random: Random, length: usize) -> Nest {
        let sheet = vec![edition.number() as u8];
        Nest { session: Session::fresh(), edition, random, sheet, length, waiting: 0, event: 0, keeper: MAIN }
    }

    /// Main is started and makes the template; often a second one and an event, and now and then a task to end last.
    /// Without them there is room for one line of 509 tasks.
    fn open(&mut self, theme: Theme) {
        for record in [&[10, MAIN][..], &[11, MAIN], &[1, MAIN, 0]] {
            self.call(record[0], &record[1..]);
        }
        if theme != Theme::Short && self.random.percent(60) {
            self.waiting = self.call(1, &[MAIN, 1]).map_or(0, |answer| answer.made);
            self.event = self.call(3, &[MAIN, 2]).map_or(0, |answer| answer.made);
        }
        if theme != Theme::Short && self.random.percent(25) {
            self.keeper = self.call(2, &[MAIN, SLOTLESS, 0, 0, 0]).map_or(MAIN, |answer| answer.made);
            self.start(self.keeper);
        }
    }

    /// Write the record, if there is room for it, and carry it out.
    fn call(&mut self, code: u64, fields: &[u64]) -> Option<Answer> {
        let operation = Operation::new(code, fields);
        let record = write_record(&operation, self.edition.number()).ok()?;
        if self.sheet.len() + record.len() > self.length {
            // What comes later could be shorter, and is not to stand without this one.
            self.length = 0;
            return None;
        }
        self.sheet.extend(record);
        Some(self.session.apply(&operation))
    }

    /// There is room for records, and somebody to call.
    fn is_going_on(&self) -> bool {
        self.length > 0 && self.handles(is_running).next().is_some()
    }

    /// Tasks are made, so many at most, then some go, and so on.
    fn take_turns(&mut self, most: u64) {
        while self.session.object_count() < MAX_OBJECTS && self.is_going_on() {
            let tasks = 1 + self.random.below(most);
            self.grow(tasks);
            let calls = 1 + self.random.below(2 * most);
            self.wind_down(calls);
        }
        self.settle();
    }

    /// As many tasks as there is room for, or fewer; then they go, main before them in some sheets.
    fn go_deep(&mut self) {
        let any = 1 + self.random.below(MAX_OBJECTS);
        let tasks = self.random.among(&[16, 64, 128, 255, MAX_OBJECTS, MAX_OBJECTS, any, any]);
        self.grow(tasks);
        if self.random.percent(20) {
            self.call(12, &[MAIN, 0]);
        }
        self.wind_down(2 * tasks);
        self.settle();
    }

    /// So many tasks, or as many as there is room for.
    fn grow(&mut self, tasks: u64) {
        let growth = Growth {
            inner: self.random.among(&[100, 100, 100, 97, 80, 30]),
            finish: self.random.among(&[0, 50, 50, 100]),
            output: self.random.among(&[0, 0, 30, 60, 100]),
            waiting: self.random.among(&[0, 0, 3, 10]),
            started: self.random.among(&[100, 100, 97, 80]),
        };
        for _ in 0..tasks {
            if self.make_task(&growth).is_none() {
                break;
            }
        }
    }

    /// `None` if no task was made.
    fn make_task(&mut self, growth: &Growth) -> Option<()> {
        let caller = self.caller(growth.inner)?;
        let waits = self.waiting != 0 && self.random.percent(growth.waiting);
        let template = if waits { self.waiting } else { SLOTLESS };
        let (finish, output) = (self.random.percent(growth.finish), self.random.percent(growth.output));
        let fields = [caller, template, 17, u64::from(finish), u64::from(output)];
        let made = self.call(2, &fields).filter(|answer| answer.refused == 0)?.made;
        if output && self.event != 0 && self.random.percent(40) {
            self.call(5, &[caller, made + 1, self.event, 0, 1]);
        }
        if !waits && self.random.percent(growth.started) {
            self.start(made);
        }
        Some(())
    }

    /// The newest task that runs in so many cases of a hundred, the one to end last if there is no other; else any that
    /// runs.
    fn caller(&mut self, newest: u64) -> Option<u64> {
        if self.random.percent(newest) {
            let found = self.handles(is_running).rev().find(|handle| *handle != self.keeper);
            return found.or(self.handles(is_running).next());
        }
        self.pick_any(is_running)
    }

    fn start(&mut self, task: u64) {
        self.call(10, &[task]);
        self.call(11, &[task]);
    }

    /// So many calls, most of them ends, in one order for the most part.
    fn wind_down(&mut self, calls: u64) {
        let order = self.random.among(&[Order::OutsideIn, Order::OutsideIn, Order::InsideOut, Order::Any]);
        let steady = self.random.among(&[100, 95, 70]);
        for _ in 0..calls {
            match self.random.below(100) {
                0..=80 if self.random.percent(steady) => self.end(order),
                0..=80 => self.end(Order::Any),
                81..=90 => self.destroy(),
                91..=93 => self.rouse(),
                94..=96 => self.deliver(),
                _ => self.call_anything(),
            }
        }
    }

    fn end(&mut self, order: Order) {
        let running: Vec<u64> = self.handles(is_running).filter(|handle| *handle != self.keeper).collect();
        let (Some(first), Some(last)) = (running.first(), running.last()) else { return };
        let task = match order {
            Order::OutsideIn => *first,
            Order::InsideOut => *last,
            Order::Any => self.random.among(&running),
        };
        let block = u64::from(self.random.percent(10));
        self.call(12, &[task, block]);
    }

    fn destroy(&mut self) {
        if let (Some(caller), Some(task)) = (self.pick_any(is_running), self.pick_any(is_at_rest)) {
            self.call(8, &[caller, task]);
        }
    }

    /// A task that was left alone so far comes to run.
    fn rouse(&mut self) {
        let Some(task) = self.pick_any(is_at_rest) else { return };
        if self.session.task(task).is_some_and(|task| task.state == TaskState::Waiting) {
            let Some(caller) = self.pick_any(is_running) else { return };
            self.call(5, &[caller, 0, task, 0, 1]);
        }
        self.start(task);
    }

    /// Whether an output has fired shows in a delivery.
    fn deliver(&mut self) {
        let links = self.session.link_count();
        if links > 0 {
            let link = 1 + self.random.below(links);
            self.call(9, &[link]);
        }
    }

    /// An end or a destroy that is mostly refused.
    fn call_anything(&mut self) {
        let (Some(caller), Some(task)) = (self.pick_any(|_| true), self.pick_any(|_| true)) else { return };
        let odd = self.random.among(&[0, 1, SLOTLESS, MAIN, 600]);
        match self.random.below(2) {
            0 if task != self.keeper => self.call(12, &[task, odd]),
            _ => self.call(8, &[caller, task]),
        };
    }

    /// In most sheets all that is left goes: the running tasks but one, those never started, the last one.
    fn settle(&mut self) {
        let order = self.random.among(&[Order::OutsideIn, Order::InsideOut, Order::Any]);
        if self.random.percent(85) {
            let running = self.handles(is_running).count();
            (0..running).for_each(|_| self.end(order));
        }
        let at_rest = self.handles(is_at_rest).count();
        (0..at_rest).for_each(|_| self.destroy());
        for link in 1..=self.session.link_count() {
            self.call(9, &[link]);
        }
        self.call(12, &[self.keeper, 0]);
    }

    /// The tasks wanted, lowest first.
    fn handles(&self, wanted: fn(&Task) -> bool) -> impl DoubleEndedIterator<Item = u64> + '_ {
        self.session.tasks().filter(move |(_, task)| wanted(task)).map(|(handle, _)| handle)
    }

    fn pick_any(&mut self, wanted: fn(&Task) -> bool) -> Option<u64> {
        let handles: Vec<u64> = self.handles(wanted).collect();
        (!handles.is_empty()).then(|| self.random.among(&handles))
    }
}
