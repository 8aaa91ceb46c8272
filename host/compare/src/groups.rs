//! The groups of cases, and their runs.

use std::time::Instant;

use crate::random::Random;
use crate::tally::Tally;
use crate::work::{Extent, Work};
use crate::{
    boxes, cursors, edits, ends, framed, letters, merges, places, reads, runs, scripts, shifts,
    spans, utf8,
};

/// A group; where its cases are random, how many of them a tiny and a quick run have, and of a thousand a long one.
struct Group {
    name: &'static str,
    run: fn(&mut Work),
    tiny: u64,
    quick: u64,
    share: u64,
}

const fn exhaustive(name: &'static str, run: fn(&mut Work)) -> Group {
    Group {
        name,
        run,
        tiny: 0,
        quick: 0,
        share: 0,
    }
}

const fn random(
    name: &'static str,
    run: fn(&mut Work),
    tiny: u64,
    quick: u64,
    share: u64,
) -> Group {
    Group {
        name,
        run,
        tiny,
        quick,
        share,
    }
}

const GROUPS: [Group; 34] = [
    exhaustive("small edits", edits::small),
    random("edits", edits::random, 3_000, 400_000, 260),
    random("wrong edits", edits::wrong, 3_000, 300_000, 200),
    random("edits of lent views", edits::in_place, 1_000, 50_000, 20),
    random("edits at limits", edits::at_limits, 300, 20_000, 30),
    random("edits of long texts", edits::long_texts, 200, 10_000, 20),
    exhaustive("small edits judged for undo", edits::small_undoable),
    random(
        "edits judged for undo",
        edits::random_undoable,
        3_000,
        200_000,
        50,
    ),
    random("runs undone and redone", runs::random, 100, 10_000, 10),
    exhaustive("small shifts", shifts::small),
    random("shifts", shifts::random, 3_000, 500_000, 200),
    random("letters over runs", letters::random, 100, 10_000, 10),
    exhaustive("small merges", merges::small),
    random("merges", merges::random, 1_000, 50_000, 30),
    exhaustive("small row spans", spans::small),
    random("row spans", spans::random, 3_000, 100_000, 20),
    exhaustive("small ends", ends::small),
    random("ends", ends::random, 3_000, 100_000, 10),
    exhaustive("small clamps", places::small),
    random("clamps", places::random, 1_000, 100_000, 10),
    exhaustive("small boxes", boxes::small),
    random("boxes", boxes::random, 2_000, 200_000, 20),
    exhaustive("boxes of one character", boxes::one_character),
    exhaustive("small cursors", cursors::small),
    random("cursors", cursors::random, 1_000, 100_000, 10),
    exhaustive("small frames", framed::small),
    random("frames", framed::random, 1_000, 100_000, 50),
    random("damaged frames", framed::damaged, 1_000, 100_000, 50),
    random("lines read", reads::random, 1_000, 50_000, 10),
    random("texts and marks written", reads::written, 1_000, 50_000, 10),
    random("scripts", scripts::random, 100, 4_000, 10),
    exhaustive("UTF-8 sequences", utf8::sequences),
    exhaustive("scalars", utf8::scalars),
    random("UTF-8", utf8::random, 2_000, 200_000, 40),
];

impl Group {
    fn cases(&self, extent: Extent, total: u64) -> u64 {
        match extent {
            Extent::Tiny => self.tiny,
            Extent::Quick => self.quick,
            Extent::Long => total * self.share / 1000,
        }
    }

    fn tally(&self, extent: Extent, seed: u64, total: u64) -> Tally {
        let mut work = Work {
            extent,
            cases: self.cases(extent, total),
            random: Random::of(seed, self.name),
            tally: Tally::default(),
        };
        (self.run)(&mut work);
        work.tally
    }
}

/// Runs all groups, printing a line for each, and says whether all passed. `total` is how many random cases a long run has.
pub fn run(extent: Extent, seed: u64, total: u64) -> bool {
    println!("seed {seed}");
    let begun = Instant::now();
    let (mut cases, mut passed, mut failed) = (0, 0, 0);
    for group in GROUPS {
        let begun = Instant::now();
        let tally = group.tally(extent, seed, total);
        let seconds = begun.elapsed().as_secs_f64();
        println!("{}: {seconds:.1} s, {tally}", group.name);
        cases += tally.cases();
        match tally.passed() {
            true => passed += 1,
            false => failed += 1,
        }
    }
    println!("{cases} cases, {:.1} s", begun.elapsed().as_secs_f64());
    println!("{passed} passed, {failed} failed");
    failed == 0
}
