//! How often each outcome was met, so that a comparison that never came to some number is seen.

use model::{Action, Ran, STEP, read_step};

use crate::allowed::Lists;
use crate::archive::Viewed;
use crate::cases::{Case, KINDS};
use crate::counts::{Counts, print_compared};
use crate::lasting::Lasting;
use crate::leaving::Leaves;
use crate::lining::Lines;
use crate::roll_call::RollCalls;
use crate::sites::Sites;
use crate::steps::RULES;

/// What is compared, each over every case that it fits.
#[derive(Clone, Copy)]
pub enum Comparison {
    Numbers,
    Room,
    Allowed,
    Check,
    Line,
    Leave,
    Reason,
    RollCall,
    View,
    Lent,
    Joins,
    Sites,
    Lasting,
    Receivers,
}

pub const COMPARISONS: [&str; 14] = [
    "the run's number, counts, reason and holder",
    "every byte of the room",
    "the list of allowed steps, and every byte of its room",
    "the check",
    "the line question, and that a table in line lasts",
    "the leave question: number, reason and holder",
    "the reason of a 14, and the leave question about what was written",
    "the roll call, every byte of its records, and asking one by one",
    "the view at every position and past the end",
    "lent memory, and what lies around it, as it was",
    "joined stations before and after",
    "site codes: carried by every step, no part in anything else, none above 9,999",
    "the two lasting facts: a table in line, a station that may leave",
    "two receivers of one table",
];

/// What a view gave: blocks, ends of accepted tables, and refusals by number.
#[derive(Default)]
pub struct Views {
    pub blocks: u64,
    pub ends: u64,
    pub refused: [u64; 8],
}

impl Views {
    pub fn count(&mut self, viewed: Viewed) {
        match viewed {
            Viewed {
                answer: 0,
                has_block: 0,
                ..
            } => self.ends += 1,
            Viewed { answer: 0, .. } => self.blocks += 1,
            Viewed { answer, .. } => self.refused[answer as usize] += 1,
        }
    }
}

#[derive(Default)]
pub struct Tally {
    /// How often each comparison was made, and how often it differed.
    pub made: [u64; COMPARISONS.len()],
    pub different: [u64; COMPARISONS.len()],
    pub kinds: [u64; KINDS.len()],
    pub run: [u64; 16],
    pub check: [u64; 8],
    pub lines: Lines,
    pub leaves: Leaves,
    pub view: Views,
    pub lists: Lists,
    pub calls: RollCalls,
    pub sites: Sites,
    pub lasting: Lasting,
    /// The refused steps 11 to 15 by action: timeout, deliver, exit.
    pub stopped: [[u64; 3]; 16],
    pub steps_done: u64,
    pub longest_done: usize,
    pub rules: [u64; RULES.len()],
    /// Rooms shorter than the table, equal to it and longer.
    pub rooms: [u64; 3],
    pub joined: u64,
    pub joined_several: u64,
    pub joined_departed: u64,
    pub exits: u64,
    pub receivers: u64,
    pub receivers_steps: u64,
}

impl Tally {
    /// Counts a comparison that was made, and hands on what differed.
    pub fn compared(&mut self, what: Comparison, result: Result<(), String>) -> Result<(), String> {
        self.made[what as usize] += 1;
        self.different[what as usize] += u64::from(result.is_err());
        result
    }

    /// The comparisons in which nothing differed, and those in which something did.
    pub fn verdict(&self) -> (u64, u64) {
        let made = self.made.iter().filter(|&&count| count > 0).count();
        let failed = self.different.iter().filter(|&&count| count > 0).count();
        ((made - failed) as u64, failed as u64)
    }

    pub fn ran(&mut self, ran: &Ran, case: &Case) {
        self.kinds[case.kind] += 1;
        self.run[ran.answer as usize] += 1;
        self.steps_done += ran.done as u64;
        self.longest_done = self.longest_done.max(ran.done);
        let room = match case.room.cmp(&case.table.len()) {
            std::cmp::Ordering::Less => 0,
            std::cmp::Ordering::Equal => 1,
            std::cmp::Ordering::Greater => 2,
        };
        self.rooms[room] += 1;
        if ran.answer == 0 || ran.answer >= 10 {
            case.count_rules(&mut self.rules);
        }
        if ran.answer >= 11 {
            let step =
                read_step(&case.steps[STEP * ran.done..][..STEP]).expect("it is not malformed");
            let action = match step.action {
                Action::Timeout => 0,
                Action::Deliver(_) => 1,
                Action::Exit => 2,
            };
            self.stopped[ran.answer as usize][action] += 1;
        }
    }

    /// What was never met though it should have been.
    pub fn missing(&self) -> Vec<String> {
        let mut missing = Vec::new();
        let mut need = |count: u64, what: String| {
            if count == 0 {
                missing.push(what);
            }
        };
        for (number, &count) in self.run.iter().enumerate() {
            need(count, format!("run {number}"));
        }
        for (number, &count) in self.check.iter().enumerate() {
            need(count, format!("check {number}"));
        }
        need(self.view.blocks, "view of a block".to_string());
        need(self.view.ends, "view of the end".to_string());
        for number in 1..=7 {
            need(self.view.refused[number], format!("view {number}"));
        }
        for (number, action) in [
            (11, 0),
            (11, 1),
            (11, 2),
            (12, 1),
            (13, 2),
            (14, 2),
            (15, 0),
            (15, 1),
            (15, 2),
        ] {
            need(
                self.stopped[number][action],
                format!("{number} by {}", ACTIONS[action]),
            );
        }
        for (name, &count) in RULES.iter().zip(&self.rules) {
            need(count, name.to_string());
        }
        for (name, &count) in KINDS.iter().zip(&self.kinds) {
            need(count, name.to_string());
        }
        for (name, &count) in COMPARISONS.iter().zip(&self.made) {
            need(count, name.to_string());
        }
        for (name, count) in ["shorter", "equal", "longer"].iter().zip(self.rooms) {
            need(count, format!("a room {name}"));
        }
        need(self.joined_several, "a table in several parts".to_string());
        need(self.joined_departed, "joins after a departure".to_string());
        need(
            self.receivers_steps,
            "two receivers that do steps".to_string(),
        );
        missing.extend(self.lines.missing());
        missing.extend(self.leaves.missing());
        missing.extend(self.lists.missing());
        missing.extend(self.calls.missing());
        missing.extend(self.sites.missing());
        missing.extend(self.lasting.missing());
        missing
    }

    pub fn print(&self) {
        print_compared("compared", &COMPARISONS, &self.made, &self.different);
        println!("cases by kind:");
        for (name, count) in KINDS.iter().zip(&self.kinds) {
            println!("{count:>10}  {name}");
        }
        println!("answers of the run:");
        for (number, count) in self.run.iter().enumerate() {
            print!("{count:>10}  {number}");
            if number >= 11 {
                let by: Vec<String> = (0..3)
                    .filter(|&action| self.stopped[number][action] > 0)
                    .map(|action| format!("{} {}", self.stopped[number][action], ACTIONS[action]))
                    .collect();
                print!(" ({})", by.join(", "));
            }
            println!();
        }
        println!("answers of the check:");
        for (number, count) in self.check.iter().enumerate() {
            println!("{count:>10}  {number}");
        }
        self.lines.print();
        self.leaves.print();
        println!("answers of the view:");
        println!("{:>10}  0, a block", self.view.blocks);
        println!("{:>10}  0, the end", self.view.ends);
        for (number, count) in self.view.refused.iter().enumerate().skip(1) {
            println!("{count:>10}  {number}");
        }
        self.lists.print();
        self.lists.print_steps();
        self.calls.print();
        self.sites.print();
        self.lasting.print();
        println!("steps done, by rule, of those chosen against the model:");
        for (name, count) in RULES.iter().zip(&self.rules) {
            println!("{count:>10}  {name}");
        }
        let [shorter, equal, longer] = self.rooms;
        println!("rooms: {shorter} shorter than the table, {equal} equal, {longer} longer");
        println!(
            "steps done: {}, most in one run {}",
            self.steps_done, self.longest_done
        );
        println!(
            "joins compared: {} tables, {} of them in several parts, {} with departures, {} exits in all",
            self.joined, self.joined_several, self.joined_departed, self.exits
        );
        println!(
            "two receivers compared: {} lists, {} steps done",
            self.receivers, self.receivers_steps
        );
    }
}

const ACTIONS: [&str; 3] = ["timeout", "deliver", "exit"];
