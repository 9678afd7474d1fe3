//! Tries the comparison itself: every wrong version of the independent implementation must be
//! caught, and the right one must not be. With --list it tells how each was caught.

use std::panic;
use std::process::ExitCode;

use tessarquin_tests::calls::{Calls, LAW};
use tessarquin_tests::cases;
use tessarquin_tests::chains;
use tessarquin_tests::compare::{Checker, Difference};
use tessarquin_tests::crossings;
use tessarquin_tests::joins;
use tessarquin_tests::narrows;
use tessarquin_tests::random::Random;
use tessarquin_tests::setups;
use tessarquin_tests::strips;

/// A wrong version.
struct Version {
    title: &'static str,
    /// Which cases ask for a call that it answers otherwise.
    can_show: fn(u64) -> bool,
    /// What shows it with nothing to compare with.
    flaws: &'static [&'static str],
    calls: Calls,
}

mod wrong {
    #![allow(warnings)] // they are wrong on purpose

    use super::Version;
    use tessarquin_tests::{calls_of, cases};

    include!(concat!(env!("OUT_DIR"), "/wrong.rs"));
}

/// A kind of case that shows a version at odds with itself.
struct Way {
    /// The flaw of the versions that it must catch.
    flaw: &'static str,
    caught_how: &'static str,
    kind: &'static str,
    run: fn(&mut Checker, &mut Random) -> Result<(), Difference>,
}

const WAYS: [Way; 25] = [
    Way {
        flaw: "breaks demand 3",
        caught_how: "caught by demand 3 alone",
        kind: "cut of a cut",
        run: cases::cut_of_cut,
    },
    Way {
        flaw: "breaks a chain",
        caught_how: "caught by chains of cuts alone",
        kind: "chain of cuts",
        run: chains::any_chain,
    },
    Way {
        flaw: "breaks a rule",
        caught_how: "caught by opening what they write",
        kind: "cut or narrowed, and opened",
        run: cases::written_opened,
    },
    Way {
        flaw: "hangs on the header",
        caught_how: "caught by two headers alone",
        kind: "two headers",
        run: cases::two_headers,
    },
    Way {
        flaw: "misplaces a part",
        caught_how: "caught by parts and texts alone",
        kind: "parts and texts",
        run: cases::parts_and_texts,
    },
    Way {
        flaw: "misses the rail",
        caught_how: "caught by the marks of known samples alone",
        kind: "marks",
        run: cases::marks_known,
    },
    Way {
        flaw: "hangs on arrival",
        caught_how: "caught by another order of arrival alone",
        kind: "two arrivals",
        run: joins::two_arrivals,
    },
    Way {
        flaw: "moves a segment",
        caught_how: "caught by the points of the parts they join alone",
        kind: "join",
        run: joins::joined_points,
    },
    Way {
        flaw: "gives no part back",
        caught_how: "caught by cutting what they join alone",
        kind: "join of cuts",
        run: joins::joined_cuts,
    },
    Way {
        flaw: "moves a value",
        caught_how: "caught by the points of what they narrow alone",
        kind: "narrowed",
        run: narrows::narrowed_points,
    },
    Way {
        flaw: "hangs on the cut",
        caught_how: "caught by narrowing before and behind a cut alone",
        kind: "narrowed and cut",
        run: narrows::narrowed_cuts,
    },
    Way {
        flaw: "narrows twice",
        caught_how: "caught by narrowing twice alone",
        kind: "narrowed twice",
        run: narrows::narrowed_twice,
    },
    Way {
        flaw: "misses a value",
        caught_how: "caught by the values of the points they cross at alone",
        kind: "crossing and values",
        run: crossings::by_values,
    },
    Way {
        flaw: "looks behind",
        caught_how: "caught by other samples behind the crossing alone",
        kind: "crossing and samples behind it",
        run: crossings::by_samples_behind,
    },
    Way {
        flaw: "falls back",
        caught_how: "caught by raising the level alone",
        kind: "crossings of raised levels",
        run: crossings::by_raised_levels,
    },
    Way {
        flaw: "moves in a cut",
        caught_how: "caught by cutting about the crossing alone",
        kind: "crossing and cuts",
        run: crossings::by_cuts,
    },
    Way {
        flaw: "misses a sample",
        caught_how: "caught by the values of the points in their strips alone",
        kind: "strips and values",
        run: strips::by_values,
    },
    Way {
        flaw: "hangs on the columns",
        caught_how: "caught by other columns alone",
        kind: "strips in other columns",
        run: strips::by_columns,
    },
    Way {
        flaw: "pairs otherwise",
        caught_how: "caught by joining columns in pairs alone",
        kind: "strips and pairs of columns",
        run: strips::by_pairs,
    },
    Way {
        flaw: "changes in a cut",
        caught_how: "caught by the strips of cuts alone",
        kind: "strips and cuts",
        run: strips::by_cuts,
    },
    Way {
        flaw: "misses a setup",
        caught_how: "caught by lines and setups of known answers alone",
        kind: "known line and setup",
        run: setups::by_making,
    },
    Way {
        flaw: "reads back otherwise",
        caught_how: "caught by reading what they write alone",
        kind: "setup written and read",
        run: setups::by_writing,
    },
    Way {
        flaw: "has no normal line",
        caught_how: "caught by writing what they read alone",
        kind: "line read and written",
        run: setups::by_reading,
    },
    Way {
        flaw: "hangs on the spelling",
        caught_how: "caught by other spellings alone",
        kind: "setup in several spellings",
        run: setups::by_spellings,
    },
    Way {
        flaw: "takes a byte more",
        caught_how: "caught by one byte more alone",
        kind: "line and one byte more",
        run: setups::by_more,
    },
];

/// Cases that a version is compared in: those of a common run.
const CASES: u64 = 4000;
const SEED: u64 = 1;

fn main() -> ExitCode {
    let at_odds = || WAYS.iter().find_map(|way| first_at_odds(LAW, way));
    if let Some(found) = first_difference(LAW, |_| true).or_else(at_odds) {
        println!("the right version: {found}");
        return ExitCode::FAILURE;
    }
    // A wrong version may panic; the comparison tells of it.
    panic::set_hook(Box::new(|_| ()));
    let list = std::env::args().any(|argument| argument == "--list");
    let mut all_caught = tell("caught", list, wrong::WRONG.iter(), |version| {
        first_difference(version.calls, version.can_show)
    });
    for way in &WAYS {
        let flawed = wrong::WRONG.iter().filter(|version| version.flaws.contains(&way.flaw));
        all_caught &=
            tell(way.caught_how, list, flawed, |version| first_at_odds(version.calls, way));
    }
    match all_caught {
        true => ExitCode::SUCCESS,
        false => ExitCode::FAILURE,
    }
}

/// Prints how many versions are caught, and which are not; whether all are.
fn tell<'a>(
    caught_how: &str,
    list: bool,
    versions: impl Iterator<Item = &'a Version>,
    catch: impl Fn(&Version) -> Option<String>,
) -> bool {
    let (mut caught, mut all) = (0, 0);
    for version in versions {
        let (title, found) = (version.title, catch(version));
        caught += u32::from(found.is_some());
        all += 1;
        if list || found.is_none() {
            println!("{title}: {}", found.unwrap_or(format!("NOT CAUGHT in {CASES} cases")));
        }
    }
    println!("{caught} of {all} wrong versions {caught_how}");
    caught == all && all > 0
}

/// The first difference between a version and the right one, in a line. Only cases that can show it
/// are asked.
fn first_difference(mut calls: Calls, can_show: fn(u64) -> bool) -> Option<String> {
    let mut checker = Checker::new(&mut calls, LAW);
    (0..CASES).filter(|case| can_show(*case)).find_map(|case| {
        let (kind, result) = cases::run(&mut checker, SEED, case);
        result.err().map(|difference| line(case, &kind, difference))
    })
}

/// The first case in which a version is at odds with itself. It is compared with itself, so that
/// nothing but what the case is made for can show it.
fn first_at_odds(calls: Calls, way: &Way) -> Option<String> {
    let mut core = calls;
    let mut checker = Checker::new(&mut core, calls);
    (0..CASES).find_map(|case| {
        let result = (way.run)(&mut checker, &mut Random::new(SEED, case));
        result.err().map(|difference| line(case, way.kind, difference))
    })
}

fn line(case: u64, kind: &str, Difference(text): Difference) -> String {
    let text = text.split_whitespace().collect::<Vec<_>>().join(" ");
    format!("case {case} ({kind}), {text}")
}
