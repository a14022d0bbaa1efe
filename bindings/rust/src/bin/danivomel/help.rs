//! What the command says of itself.

/// The name and the version of the package.
pub const VERSION: &str = concat!("danivomel ", env!("CARGO_PKG_VERSION"), "\n");

/// All commands.
pub const HELP: &str = "\
danivomel shares out whole copies over the units of a press, by proved code.

    danivomel settle  [FILE]    settle a job and print its report
    danivomel table   [FILE]    the same for a person: ranges given and left, shares, figures in copies
    danivomel sheet   [FILE]    the same as a picture: danivomel sheet evening.job > plan.svg
    danivomel check   [FILE]    read a job and settle nothing
    danivomel hand-on [FILE]    settle a job and print it as a job text with the settled ranges
    danivomel level   --total COPIES UNIT..    the most even share of one group
    danivomel narrow  --total COPIES [--dev LIMIT] [--spread LIMIT] [--pairs LIMIT] UNIT..
                                what each unit of one group may be given

Without a FILE the job comes from standard input. A UNIT is LOW..HIGH, or shut; a LIMIT is a number, or any.
'danivomel NAME --help' has an example of each, 'danivomel --version' prints the version.

The exit status is 0 for an answer, 1 for a refusal, and 2 for a file that cannot be read or written, or for wrong words.
A refusal is one line on standard output, '(refused NUMBER PLACE)'; standard error says what it means and what to do.
";

/// The help of one command.
pub fn help_of(name: &str) -> Option<&'static str> {
    match name {
        "settle" => Some(SETTLE),
        "table" => Some(TABLE),
        "sheet" => Some(SHEET),
        "check" => Some(CHECK),
        "hand-on" => Some(HAND_ON),
        "level" => Some(LEVEL),
        "narrow" => Some(NARROW),
        _ => None,
    }
}

const SETTLE: &str = "\
danivomel settle [FILE]: settles a job, from FILE or from standard input, and prints its report.

    danivomel settle examples/works.job

The report has the passes, for each unit the range that is left, and for each group its level, its deviation, its spread,
its pair differences and its most even share. It is what the program settle prints, byte by byte; the exit status says
how it went.
";

const TABLE: &str = "\
danivomel table [FILE]: settles a job, from FILE or from standard input, and prints its report for a person.

    danivomel table examples/works.job

For each unit the range given and the range left; for each group its total, its mean, the share of each unit, the three
figures and what they are in copies, and what is left of its limits.
";

const SHEET: &str = "\
danivomel sheet [FILE]: settles a job, from FILE or from standard input, and prints its plan sheet as a picture (SVG).

    danivomel sheet examples/works.job > plan.svg

Every browser shows and prints it. If the job is refused there is no picture, and the file holds the refusal's line.
";

const CHECK: &str = "\
danivomel check [FILE]: reads a job, from FILE or from standard input, and says how many units and groups it has.

    danivomel check examples/works.job

It settles nothing: a job that reads may still be refused with 11 or 12.
";

const HAND_ON: &str = "\
danivomel hand-on [FILE]: settles a job, from FILE or from standard input, and prints it as a job text again, with the
settled ranges in its unit lines, for another desk to go on from.

    danivomel hand-on examples/evening-before.job > day.job

Never write over the job itself: the shell empties the file before it is read. If the job is refused, the file holds the
refusal's line.
";

const LEVEL: &str = "\
danivomel level --total COPIES UNIT..: the most even share of one group, as a group's line of a report has it: level,
deviation, spread, pair differences and shares.

    danivomel level --total 20 8..10 4..7 1..5 3..4
    danivomel level --total 10 1..3 2..6 3..9

COPIES is the group's total. A UNIT is LOW..HIGH, the fewest and the most copies that it can take, or shut for one that is
off the run. Each unit takes the level, or its own low or high where the level is outside; copies left over go one each to
the units with the most room up to their high (high - level), among equals to the earlier.
";

const NARROW: &str = "\
danivomel narrow --total COPIES [--dev LIMIT] [--spread LIMIT] [--pairs LIMIT] UNIT..: for each unit of one group exactly
the range of shares that some plan within the limits takes.

    danivomel narrow --total 20 --dev 28 8..10 4..7 1..5 3..4
    danivomel narrow --total 20 --pairs 15 8..10 4..7 1..5 3..4

COPIES is the group's total. --dev limits the deviation, --spread the spread, and --pairs the differences of all pairs of
units. A LIMIT is a number, or any, which is the same as no limit. A UNIT is LOW..HIGH, the fewest and the most copies
that it can take, or shut for one that is off the run.
";
