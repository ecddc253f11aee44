//! Searches that end deep in their tree, or at the default budget: files like the
//! heavy ones but smaller, each with what `linkplan` has to print for it.

use crate::{engine, heavy};
use reference::file::PlanFile;
use reference::programs::{searched_lines, BUDGET};
use reference::write::to_bytes;
use std::fs;
use std::path::Path;

/// Writes N.plan and N.expected for each file, and says how many branchings they take.
pub fn run(folder: &Path) -> Result<(), String> {
    let said = |error: std::io::Error| format!("{}: {error}\n", folder.display());
    fs::create_dir_all(folder).map_err(said)?;
    let plans = files();
    let mut branchings = 0;
    for (number, plan) in plans.iter().enumerate() {
        let searched = engine::search(plan, BUDGET);
        branchings += u64::from(searched.branchings);
        fs::write(folder.join(format!("{number}.plan")), to_bytes(plan)).map_err(said)?;
        let lines = searched_lines(&searched);
        fs::write(folder.join(format!("{number}.expected")), lines).map_err(said)?;
    }
    println!("{} files, {branchings} branchings", plans.len());
    Ok(())
}

fn files() -> Vec<PlanFile> {
    let mut plans = vec![heavy::hub(60), heavy::metro(4, 420), heavy::ring(16)];
    for seed in 1..=3 {
        plans.extend((60..=120).step_by(10).map(|n| heavy::clauses(seed, n)));
    }
    plans.extend((4..=9).map(heavy::chain));
    plans.extend((5..=15).step_by(5).map(heavy::hub));
    plans.extend([(4, 300), (5, 340)].map(|(seed, rules)| heavy::metro(seed, rules)));
    for seed in 3..=5 {
        plans.extend(
            (540..=780)
                .step_by(40)
                .map(|rules| heavy::metro(seed, rules)),
        );
    }
    // With lengths, as plans and as impossible, from hundreds of branchings to 55,000.
    let delays = [
        (12, 220),
        (8, 300),
        (1, 420),
        (12, 280),
        (4, 460),
        (9, 280),
        (10, 250),
        (12, 250),
    ];
    plans.extend(delays.map(|(seed, rules)| heavy::delays(seed, rules)));
    plans
}
