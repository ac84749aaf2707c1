//! Many runs: with all rules none is contradicted, and with each one left out one is.

use super::*;
use crate::journal::rules::{leave_out, Rule};

/// So many runs: the first that contradicts, with its seed.
fn contradicted(rule: Option<Rule>, seeds: Range<u64>) -> Result<Model, (u64, String)> {
    by_hand::hold();
    leave_out(rule);
    let mut all = Model::new(0);
    for seed in seeds {
        let mut model = Model::new(seed);
        let judged = model.run(400);
        if let Err(why) = judged {
            leave_out(None);
            return Err((seed, why));
        }
        all.lives += model.lives;
        all.repeated += model.repeated;
        all.ghost.compared += model.ghost.compared;
    }
    leave_out(None);
    Ok(all)
}

#[test]
fn with_all_rules_nothing_is_contradicted() {
    let runs = std::env::var("MODEL_RUNS").ok().and_then(|word| word.parse().ok()).unwrap_or(300);
    match contradicted(None, 0..runs) {
        Ok(all) => {
            println!("{runs} runs, {} lives, {} answers, {} repeats", all.lives, all.ghost.compared, all.repeated);
            assert!(all.lives as u64 > 3 * runs && all.ghost.compared as u64 > 50 * runs && all.repeated as u64 > runs);
        }
        Err((seed, why)) => panic!("seed {seed}: {why}"),
    }
}

#[test]
fn each_rule_that_is_left_out_is_noticed() {
    let all = [
        Rule::RequestsWait,
        Rule::CommitsWait,
        Rule::ReadsWait,
        Rule::ScansWait,
        Rule::MessagesWait,
        Rule::TooLateWaits,
        Rule::StatsWait,
        Rule::BelowHorizonWaits,
        Rule::CollectionsWait,
        Rule::CallsWaitForTheMark,
        Rule::TheMarkIsWritten,
        Rule::ClosedComesToTheMark,
        Rule::NothingIsCalledBehindTheEnd,
        Rule::NamesAreKept,
        Rule::GenerationsAreKept,
        Rule::CollectionsAreKept,
        Rule::ClosingsAreKeptAsAnswered,
        Rule::AnswersAreKept,
        Rule::AnswersStandBesideTheirCommits,
        Rule::IdentityStays,
        Rule::OneBatchAtATime,
        Rule::TornBatchesGo,
        Rule::FailedWritesEnd,
        Rule::TheSwitchComesFirst,
        Rule::TheCopyReachesWhatBegan,
        Rule::TheCopyWaitsForClosed,
        Rule::AnswersAreCarried,
    ];
    let unseen: Vec<Rule> = all
        .into_iter()
        .filter(|rule| match contradicted(Some(*rule), 0..3000) {
            Ok(_) => true,
            Err((seed, why)) => {
                println!("{rule:?}: seed {seed}: {}", why.lines().next().unwrap_or(""));
                false
            }
        })
        .collect();
    assert!(unseen.is_empty(), "{unseen:?}");
}
