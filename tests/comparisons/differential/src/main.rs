//! Compares the proved library with the reference on random calls:
//!
//!     differential [--seed N] [--steps N] [--sessions N] [--scripts N] [--switch-ons N] [--wild N] [--calls N]
//!
//! The seed is printed and makes the same run again; `--calls` shares a small number out among all sorts of calls. The first
//! difference is printed, and the exit code is then 1. Every slice that is lent is a piece of the heap of just its size, so that
//! `valgrind --tool=memcheck` sees a read or a write by one byte too many.

mod call;
mod dice;
mod judging;
mod random;
mod records;
mod sessions;
mod show;
mod state_bytes;
mod states;
mod steps;
mod switching;

use dice::Dice;
use std::process::ExitCode;
use std::time::{SystemTime, UNIX_EPOCH};

struct Plan {
    seed: u64,
    steps: u64,
    sessions: u64,
    scripts: u64,
    switch_ons: u64,
    wild: u64,
}

#[derive(Default)]
struct Tally {
    steps: steps::Tally,
    sessions: sessions::Tally,
    judging: judging::Tally,
    switching: switching::Tally,
}

fn plan() -> Result<Plan, String> {
    let time = SystemTime::now().duration_since(UNIX_EPOCH).map_or(0, |time| time.as_nanos() as u64);
    let mut plan = Plan {
        seed: time,
        steps: 1_000_000,
        sessions: 20_000,
        scripts: 100_000,
        switch_ons: 50_000,
        wild: 20_000,
    };
    let mut arguments = std::env::args().skip(1);
    while let Some(name) = arguments.next() {
        let value = arguments.next().ok_or(format!("{name} needs a number"))?;
        let number: u64 = value.parse().map_err(|_| format!("{name} {value}: no number"))?;
        match name.as_str() {
            "--seed" => plan.seed = number,
            "--steps" => plan.steps = number,
            "--sessions" => plan.sessions = number,
            "--scripts" => plan.scripts = number,
            "--switch-ons" => plan.switch_ons = number,
            "--wild" => plan.wild = number,
            "--calls" => {
                [plan.sessions, plan.wild] = [number / 50; 2];
                [plan.scripts, plan.switch_ons] = [number / 10; 2];
                plan.steps = number - plan.sessions - plan.wild - plan.scripts - plan.switch_ons;
            }
            _ => return Err(format!("no option {name}")),
        }
    }
    Ok(plan)
}

fn compare_all(plan: &Plan, tally: &mut Tally) -> Result<(), String> {
    let dice = &mut Dice::new(plan.seed);
    let enough = plan.steps > steps::EVENTS_TO_TAKE as u64;
    let mut made = if enough { steps::every(dice, &mut tally.steps)? } else { 0 };
    while made < plan.steps {
        made += steps::walk(dice, plan.steps - made, &mut tally.steps)?;
        for _ in 0..(plan.steps - made).min(75) {
            steps::single(dice, &mut tally.steps)?;
            made += 1;
        }
    }
    for _ in 0..plan.scripts {
        judging::compare(dice, &mut tally.judging)?;
    }
    for _ in 0..plan.switch_ons {
        switching::compare(dice, &mut tally.switching)?;
    }
    for _ in 0..plan.sessions {
        sessions::compare(dice, &mut tally.sessions)?;
    }
    for _ in 0..plan.wild {
        sessions::wild(dice, &mut tally.sessions)?;
    }
    Ok(())
}

/// "N with 1, M with 2", of the numbers that were given.
fn refused(counts: &[u64]) -> String {
    let given = counts.iter().enumerate().skip(1).filter(|(_, &count)| count > 0);
    let told: Vec<String> = given.map(|(number, count)| format!("{count} with {number}")).collect();
    if told.is_empty() {
        "none".to_string()
    } else {
        told.join(", ")
    }
}

fn report(tally: &Tally) {
    let Tally { steps, sessions, judging, switching } = tally;
    println!(
        "steps: {} taken, {} of {} bytes and faults with an interface and a wait or a drop; refused {}",
        steps.by_refusal[0],
        steps.events.len(),
        steps::EVENTS_TO_TAKE,
        refused(&steps.by_refusal)
    );
    println!(
        "scripts: {} whole, {} open, {} wrong; refused {}, {} of them for a drop",
        judging.whole,
        judging.open,
        judging.wrong,
        refused(&judging.refused),
        judging.drops
    );
    println!(
        "switch-ons: {} taken; refused {}; {} factory starts",
        switching.on,
        refused(&switching.refused),
        switching.factory
    );
    println!(
        "sessions: {} bytes to {} bytes in {} calls; {} to their end; refused {}; {} calls from wild cursors",
        sessions.bytes,
        sessions.transcripts,
        sessions.calls,
        sessions.by_refusal[0],
        refused(&sessions.by_refusal),
        sessions.wild
    );
}

fn main() -> ExitCode {
    let plan = match plan() {
        Ok(plan) => plan,
        Err(what) => {
            eprintln!("differential: {what}");
            return ExitCode::from(2);
        }
    };
    println!("seed {}", plan.seed);
    let mut tally = Tally::default();
    if let Err(difference) = compare_all(&plan, &mut tally) {
        print!("a difference in {difference}");
        println!("again with --seed {}", plan.seed);
        return ExitCode::FAILURE;
    }
    report(&tally);
    println!(
        "{} steps, {} sessions, {} scripts, {} switch-ons, {} wild replays: 0 differences",
        plan.steps, plan.sessions, plan.scripts, plan.switch_ons, plan.wild
    );
    ExitCode::SUCCESS
}
