//! The whole script of listed cases with its lines, and the one for a player of frames, checked before anything is written.

use crate::cases;
use crate::errors;
use crate::plan::Plan;
use crate::reached::Reached;
use crate::replay::{self, Outcome, Replay};
use crate::script::{Command, Letters, LIMIT};

/// The one script error that a script can reach: a read whose size is one above the highest.
/// The bytes and a good command follow, so that a player without the limit would go on and show it.
fn broken_end() -> Vec<u8> {
    let mut end = Vec::new();
    Command::read(0, &[0; LIMIT + 1]).append_to(&mut end);
    Command::checksum(0, &[]).append_to(&mut end);
    end
}

pub struct Vectors {
    pub script: Vec<u8>,
    pub text: String,
    pub summary: String,
}

/// The vectors, or what is wrong with them.
pub fn build() -> Result<Vectors, String> {
    let plan = cases::all();
    let mut script = plan.script();
    script.extend(broken_end());
    let outcomes: Vec<Outcome> = Replay::of(&script).collect();
    check(&plan, &outcomes, plan.entries.len() + 1)?;
    let mut reached = Reached::count(&plan, &outcomes);
    for small in errors::all() {
        reached.add_end(small.play()?);
    }
    check_reached(&reached, reached.missing())?;
    let text = replay::text(&script);
    let summary = format!("{} commands\n{}", outcomes.len(), reached.summary());
    Ok(Vectors { script, text, summary })
}

/// 02 C-18: the same for a player of frames. The script ends behind a whole command.
pub fn build_frames() -> Result<Vectors, String> {
    let plan = cases::frames();
    let script = plan.script();
    let outcomes: Vec<Outcome> = Replay::by(Letters::Frames, &script).collect();
    check(&plan, &outcomes, plan.entries.len())?;
    for (_, small) in errors::of_frames() {
        small.play_by(Letters::Frames)?;
    }
    let reached = Reached::count(&plan, &outcomes);
    check_reached(&reached, reached.missing_of_frames())?;
    let text = replay::text_by(Letters::Frames, &script);
    let summary = format!("{} commands of frames\n{}", outcomes.len(), reached.summary_of_frames());
    Ok(Vectors { script, text, summary })
}

fn check_reached(reached: &Reached, missing: Vec<String>) -> Result<(), String> {
    if !missing.is_empty() {
        return Err(format!("not reached: {missing:?}"));
    }
    if !reached.impossible.is_empty() {
        return Err(format!("reached, though 01 and 02 leave no way there: {:?}", reached.impossible));
    }
    Ok(())
}

/// So many commands were played, and each came to what its case says; only what is behind them is a script error.
fn check(plan: &Plan, outcomes: &[Outcome], count: usize) -> Result<(), String> {
    if outcomes.len() != count {
        return Err(format!("{} commands gave {} lines", plan.entries.len(), outcomes.len()));
    }
    for (place, (entry, outcome)) in plan.entries.iter().zip(outcomes).enumerate() {
        let Outcome::Answered(command, answer) = outcome else {
            return Err(format!("command {place} is a script error"));
        };
        if let Some(complaint) = entry.complaint(command, answer) {
            return Err(format!("command {place}: {complaint}"));
        }
    }
    Ok(())
}

#[cfg(test)]
mod tests {
    use std::collections::BTreeSet;

    use super::*;

    #[test]
    fn the_listed_cases_hold_and_reach_everything() {
        let vectors = build().unwrap();
        assert!(vectors.script.len() < 4_800_000);
        assert!(Replay::of(&vectors.script).count() < 103_000);
        assert!(vectors.text.len() < 7_300_000);
        assert!(samples(&vectors.script) < 3_300_000);
    }

    /// Nothing but its three letters; a player of all letters gives the same lines, and both end behind a whole command.
    #[test]
    fn a_script_for_a_player_of_frames() {
        let frames = build_frames().unwrap();
        assert!(frames.script.len() < 1_500_000);
        assert_eq!(replay::text(&frames.script), frames.text);
        assert!(!frames.text.contains("script error"));
        let letters: BTreeSet<char> = Replay::of(&frames.script)
            .map(|outcome| match outcome {
                Outcome::Answered(command, _) => command.letter(),
                Outcome::ScriptError(..) => '?',
            })
            .collect();
        assert_eq!(letters, BTreeSet::from(['F', 'P', 'R']));
    }

    /// All that readers are given to hear.
    fn samples(script: &[u8]) -> usize {
        let of_command = |outcome| match outcome {
            Outcome::Answered(Command::Listen(listen), _) => listen.samples().len(),
            _ => 0,
        };
        Replay::of(script).map(of_command).sum()
    }
}
