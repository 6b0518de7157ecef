//! The help texts, and what each command takes.

use super::outcome::{Misuse, Outcome, word};
use super::topics::{self, TOPICS};
use office::Refusal;

pub struct Command {
    pub name: &'static str,
    /// Options that stand here are the ones that the command heeds.
    pub usage: &'static str,
    pub least: usize,
    pub most: usize,
    /// Whether its words name files.
    pub reads: bool,
    pub brief: &'static str,
    pub text: &'static str,
}

impl Command {
    /// Whether it heeds an option.
    pub fn has(&self, option: &str) -> bool {
        self.usage.contains(option)
    }
}

pub const COMMANDS: &[Command] = &[
    Command {
        name: "pack",
        usage: "office pack FILE [-o RECORD] [--json] [--strict] [--text]",
        least: 1,
        most: 1,
        reads: true,
        brief: "a readable house, table of sizes, list of meters or list of losses as a binary record",
        text: "\
FILE is a readable house, table of sizes, list of meters or list of losses (`office help files`); which of them is told by its
first line. Of an answer with losses that was printed with --json the losses are packed. The record goes to RECORD or to standard
output. Mistakes are named with their lines, and then no record is written.

What can be written as bytes is written. If the library refuses the record, a warning on standard error says why and where,
and the status is 1.

--json gives the record in hex: kind (job, catalogue, meters or losses), bytes, record.",
    },
    Command {
        name: "show",
        usage: "office show RECORD [-o FILE] [--json] [--strict] [--record]",
        least: 1,
        most: 1,
        reads: true,
        brief: "a binary record as a readable house, table or list",
        text: "\
RECORD is a job record or a catalogue, told apart by their length, a list of meters, told by its first byte, a meter's type, or a
list of losses, told by a 0 as the first of each four bytes; also where the library refuses it. Packing what is shown gives the
same bytes. If the library refuses the record, a warning on standard error says why and where, and the status is 1. Bytes that are
neither 40 + 10 x S (in version 2, 41 + 10 x S) nor 7 + sizes x (4 + 8 x rows) long, nor 5 for each meter or 4 for each loss, can't
be shown: status 2.

Of what `losses`, `rate`, `choose` or `heads` has printed with --json, the losses are shown as a readable list, in which those
that were measured can be put: office show answer.json -o losses.csv

--json gives the fields by name.",
    },
    Command {
        name: "flow",
        usage: "office flow JOB [-o FILE] [--json] [--strict] [--record|--text]",
        least: 1,
        most: 1,
        reads: true,
        brief: "the house's design flow, hour, day and mean hour, and each section's design flow",
        text: "\
JOB is a readable house or a job record. The house's design flow is what its pump set has to deliver. A house with a line
`service cold` or `service hot` is that line alone: its flows are worked out with that line's norms (`office kinds hot`), and every
table says so.

A design flow is what the standard's formula gives for all the fixtures that the section, or the house, serves, but never less
than what one fixture of any of their kinds draws (Z, `office kinds`). Where one fixture sets it, `one tap of` and the kind stand
behind it; of several kinds with the same Z all are named. A pipe may have a greater flow than the one that it hangs from: the
formula goes by the mean of what the kinds' fixtures draw, and a kind that draws little brings it down.

--json: service (total, cold or hot), duty_ml_per_s (the house's design flow), duty_one_tap_kinds (the kinds of which one tap sets
it, by number; empty where none does), hour_l_per_h, day_l, mean_hour_l_per_h, sections (section, flow_ml_per_s, one_tap_kinds).",
    },
    Command {
        name: "meter",
        usage: "office meter JOB METERS [-o HOUSE] [--json] [--strict] [--record|--text]",
        least: 2,
        most: 2,
        reads: true,
        brief: "the meter with the least loss from a list, and the house with that loss",
        text: "\
JOB is a readable house or a job record, METERS a readable list of meters (`office help files`) or its record of 5 bytes for
each meter. A meter's loss is its resistance x the square of the house's design flow, rounded up to whole cm. A meter qualifies
if a vane meter loses at most 500 cm, a turbine meter at most 250 cm, and the house's mean hour is at most its service flow. The
least loss wins, then the first in the list; so list no meter that you would not fit. The meter loss that the house has must be
in its range, and plays no part beyond that. The answer shows every meter with its loss, its limit, and why it does or doesn't
qualify; a star marks the winner. Where none qualifies (refusal 18) each meter is named with the limits that it breaks and by how
much, and what would do. `office help flow` explains the design flow, and `one tap of` behind it.

-o HOUSE writes the house with the winner's loss as its meter loss, beside the answer, in the form that JOB has: of a readable
house one number is another and all else stays, comments too; a record stays a record. `-o -` sends the house to standard
output in place of the answer: office meter house.txt meters.csv -o - | office choose - table.csv

--json: service, duty_ml_per_s (the house's design flow), duty_one_tap_kinds, mean_hour_l_per_h, meter (the winner's place),
meter_loss_cm, former_meter_loss_cm, record (the job with the meter, in hex), meters (meter, type, type_name,
resistance_ten_thousandths, service_flow_l_per_h, name, loss_cm, limit_cm, over_limit_cm, over_service_flow_l_per_h, qualifies).",
    },
    Command {
        name: "rate",
        usage: "office rate JOB CAT SIZES [--walk N] [-o FILE] [--json] [--strict] [--record|--text]",
        least: 3,
        most: 3,
        reads: true,
        brief: "heads, velocities and losses with a list of sizes",
        text: "\
JOB is a readable house or a job record, CAT a readable table or a catalogue. SIZES has a size number for each section,
section 1 first: 5,4,3,3 or @FILE with such numbers, or with the size bytes themselves.

Delivered head: the most head that there is behind the pump set, the guaranteed head and the most that the set may add.
Required head: the head that the list of sizes asks for. Pump head: what the list needs of the pump set, required head less
guaranteed head. Dictating section: the section whose end asks for the most; the path from the pump to it is the dictating
path, and only what is done there brings the required head down. Several ends may ask for the required head; the lowest
number of them dictates, and all their paths must lose less before it falls.

The delivered head plays no part in rating; `to spare` and `left` compare with it: left is the head left at a section's end
when the delivered head is delivered, less meter loss, losses and elevation. An end with less than its free head is SHORT.

--walk N puts the walk from section N to the pump below the answer: first section N, then the section that it hangs from, and so
on to the pump, one at each turn, with its own loss and the sum so far. In the last line of the table the sum is the path loss
of section N. Below it stands what its end asks for, and by how much that is less than the required head, or that it is the
required head and which section dictates it. Where the delivered head is too little for it, a line says by how much. Where
sections hang from section N, a line says which of those further on asks for the most. N is the number of a section of the
house, in digits alone.

`under the first row` stands where the rows of a size begin at a greater flow than the section's, with the flow of the first row:
velocity is then flow x first velocity / first flow, rounded up, and slope likewise.

`office losses` and `office heads` give the same in two steps. `office help flow` explains the design flow, and `one tap of`
behind it.

--json: service, duty_ml_per_s, duty_one_tap_kinds, hour_l_per_h, day_l, mean_hour_l_per_h, local_losses_tenths, cost_tenths (in
tenths of the price unit), sizes, suits, required_head_cm, pump_head_cm, guaranteed_head_cm, delivered_head_cm,
dictating_section, sections (section, parent, size, bore_mm, length_dm, flow_ml_per_s, one_tap_kinds, under_first_row (true or
false), velocity_mm_per_s, loss_cm, head_left_cm, free_head_cm); with --walk also walk (section, turns (section, loss_cm, sum_cm),
path_loss_cm, meter_loss_cm, elevation_cm, free_head_cm, asked_head_cm).",
    },
    Command {
        name: "losses",
        usage: "office losses JOB CAT SIZES [-o FILE] [--json] [--strict] [--record|--text]",
        least: 3,
        most: 3,
        reads: true,
        brief: "each section's flow, velocity and loss with a list of sizes, without heads",
        text: "\
JOB, CAT and SIZES as for `rate`, and the same figures. There are no heads, so that the pipes of a drawing in work can be looked
at one by one. A loss is that of the section's own pipe at its design flow, with its local losses, and not that of the whole way
from the pump.

Elevations, free heads, guaranteed and delivered head and meter loss play no part, so 0 may stand for what is not known yet. A
pipe's last end needs its fixtures all the same (refusal 6), and one size that is too small (13) leaves no table: give that section
a greater one for now.

`heads` takes the answer's --json, and gives then what `rate` gives:
office losses house.txt table.csv 2,2,1,1 --json | office heads house.txt -
`show` makes a readable list of it, in which losses that were measured can be put.

`office help flow` explains the design flow, and `one tap of` behind it; `office help rate` explains `under the first row`.

--json: service, local_losses_tenths, sizes, sections (section, parent, size, bore_mm, length_dm, flow_ml_per_s, one_tap_kinds,
under_first_row, velocity_mm_per_s, loss_cm).",
    },
    Command {
        name: "heads",
        usage: "office heads JOB LOSSES [--walk N] [-o FILE] [--json] [--strict] [--record|--text]",
        least: 2,
        most: 2,
        reads: true,
        brief: "heads and dictating section with losses that are given, as with those measured on site",
        text: "\
JOB is a readable house or a job record. LOSSES has a loss for each of its sections: a readable list (`office help files`), its
record of 4 bytes for each section, or what `losses`, `rate`, `choose` or `heads` has printed with --json. A loss is that of the
section's own pipe at its design flow, local losses too, in whole cm, 0 to 4259775; it is taken as given, from whomever it comes,
and no table of sizes plays a part: `heads` looks at no velocity of a list. The heads are worked out from the losses as `rate` does
it, and `office help rate` explains them. How the required head comes about stands below the figures.

The loss between two gauges is the difference of their readings less the height by which the section's end lies above its
beginning, or plus it where the end lies lower. Measured at another flow, a loss goes about with the square of the flow: loss at
design flow = measured loss x (design flow / measured flow) squared, rounded up to a whole cm. As: readings of 1613 cm and 1270 cm
differ by 343 cm; where the end lies 300 cm higher the loss is 43 cm; at 300 ml/s, with a design flow of 495 ml/s, it becomes
43 x (495 / 300) squared = 117.07, so 118 cm.

The losses of an answer come with what they were worked out from. Where the service is another, as of an answer of the cold line for
the house of the hot one, the local losses are others, a section begins elsewhere in the house or has another length or flow, the
answer was made for another house or before a change; where a velocity is over the house's limit, `rate` would refuse it. `heads`
gives no answer then (status 2), and the message names the first difference. An answer from before there were services is of all
water. One of `losses`, `rate` or `choose` that lacks under_first_row in a section gets a warning: a flow under the first row of its
size takes the whole first row there, so that losses may be too great; make it anew. The answer's warnings are repeated, and count
for --strict; a refusal that was handed on is shown with its places (status 1).

A readable list may say in a column `service` which line of the house its losses are of: those of another line are not taken, as of
an answer, and for a house that is a cold or a hot line a list that does not say it gets a warning. Beside that a readable list and a
record say nothing of the house but how many sections it has: check yourself that they are of this one. They, and answers of `heads`,
get warnings: a loss of 0; one over 100 cm and more than the pipe's length; losses that look like running sums, since no section
loses less than the one it hangs from; losses that look like readings of gauges, since every section that rises loses at least its
rise. A fault that more than three sections share is one line with their count. Losses that `losses`, `rate` or `choose` worked out
get none of these.

--walk N puts the walk from section N to the pump, with the given losses, below the answer; `office help rate` explains it.

`office help flow` explains the design flow, and `one tap of` behind it.

--json: service, duty_ml_per_s, duty_one_tap_kinds, hour_l_per_h, day_l, mean_hour_l_per_h, local_losses_tenths, suits,
required_head_cm, pump_head_cm, guaranteed_head_cm, delivered_head_cm, dictating_section, dictating_path (the sections from
there to the pump), path_loss_cm (what these lose together), sections (section, parent, length_dm, flow_ml_per_s, one_tap_kinds,
loss_cm, head_left_cm, free_head_cm); with --walk also walk (section, turns (section, loss_cm, sum_cm), path_loss_cm,
meter_loss_cm, elevation_cm, free_head_cm, asked_head_cm).",
    },
    Command {
        name: "choose",
        usage: "office choose JOB CAT [-o FILE] [--json] [--strict] [--record|--text]",
        least: 2,
        most: 2,
        reads: true,
        brief: CHOOSES,
        text: "\
JOB is a readable house or a job record, CAT a readable table or a catalogue. The answer is a cheapest list of sizes that
suits, rated; which of equally cheap lists comes is left free. Its line `sizes` can be given to `rate`, `losses` and `draw`.
`office help rate` explains the heads and the dictating section, and `under the first row`; `office help flow` explains the design
flow, and `one tap of` behind it.

--json: as `rate`.",
    },
    Command {
        name: "heat",
        usage: "office heat JOB --cold-water T --loss W [-o FILE] [--json] [--strict] [--record|--text]",
        least: 1,
        most: 1,
        reads: true,
        brief: "the heat flow of a hot line in its mean hour and in its greatest",
        text: "\
JOB is the house of a hot line: a readable house with a line `service hot`, or a job record of version 2 with service 2. T is the
temperature of the cold water in whole degrees C, 0 to 30; where it is not known, SNiP 2.04.01-85 takes 5. W is the heat that the
line's pipes lose, with their circulation if there is one, in whole W, 0 to 1000000; 0 is for none. Both are given, in digits alone:
nothing is assumed, and 5C, 5.5 and 1.2kW are refused.

A heat flow is 116 x l/h x (55 - T) / 100 in W, rounded up, plus the loss, of the mean hour and of the greatest (formulas 10 and 11
of SNiP 2.04.01-85). How each comes about stands below the figures. A house that is no hot line is refused with 20, a number out of
its range with 21. A loss of 1 to 99 W gets a warning: it may be in kW; and so does one above the heat of the mean hour's own water:
it may have a digit too many.

--json: service, cold_water_celsius, heat_loss_w, mean_hour_l_per_h, mean_hour_heat_w, hour_l_per_h (the greatest hour),
hour_heat_w.",
    },
    Command {
        name: "draw",
        usage: "office draw JOB CAT [SIZES] [-o FILE] [--strict] [--record|--text]",
        least: 2,
        most: 3,
        reads: true,
        brief: "the network as an SVG drawing",
        text: "\
JOB, CAT and SIZES as for `rate`; without SIZES a cheapest list is drawn. Where the house has a service, title and heading name the
line. The pump is at the left. Each pipe has its number, bore, size and length above it, flow, velocity and loss below it, and the
head left at its end against the free head. The dictating path is red and wide. Below a flow that one tap sets (`office help flow`)
stand the tap's kinds, in brackets behind the flow of the pump set where it is the house's; where their names don't fit, their
numbers (`office kinds`) stand there, with the names at the foot and under a pointer that rests on the section. Below a flow that is
under the first row of its size (`office help rate`) stands the flow of that row. Where no list suits (refusal 16, status 1) the house
is drawn all the same, and the refusal stands on standard error.",
    },
    Command {
        name: "kinds",
        usage: "office kinds [total|cold|hot] [-o FILE] [--json]",
        least: 0,
        most: 1,
        reads: false,
        brief: "the kinds of consumer: their names in a house, and their norms",
        text: "\
The norms are those of all water, or of the line that is named. A resident's cold water is what is left of all water without the
hot; a fixture draws the same from either line.

--json: service, kinds (kind, name, what, day_l, hour_tenths_l, fixture_hundredths_l_per_s, fixture_l_per_h), in document 01's
units: tenths of a litre in the hour, hundredths of a litre in the second.",
    },
    Command {
        name: "new",
        usage: "office new house|table|meters|losses [-o FILE]",
        least: 1,
        most: 1,
        reads: false,
        brief: "a house, a table of sizes, a list of meters or a list of losses to start from",
        text: "\
A small file with comments, which the library takes: put your own numbers in it. A FILE that is there already is not
replaced (status 2).",
    },
    Command {
        name: "soak",
        usage: "office soak N [--seed S] [-o FILE]",
        least: 1,
        most: 1,
        reads: false,
        brief: "the library against the independent model on N made-up orders",
        text: "\
The same seed S (1 if none is given) gives the same orders. The answer counts the numbers given back and the situations
reached. Where the two differ, the order is given in the form that `replay` takes, and the status is 1.",
    },
    Command {
        name: "replay",
        usage: "office replay FILE [-o FILE]",
        least: 1,
        most: 1,
        reads: true,
        brief: "the library against the independent model on a kept order",
        text: "\
FILE is an order as `soak` gives it: the call, its bytes in hex, and the buffers lent. Status 1 if the two differ.",
    },
    Command {
        name: "bench",
        usage: "office bench [-o FILE]",
        least: 0,
        most: 0,
        reads: false,
        brief: "how long the library's calls take here",
        text: "\
Times of the calls in microseconds, and as ratios over the independent model and over a plain search in safe Rust, on the
same orders and in one run. It takes a while.",
    },
    Command {
        name: "help",
        usage: "office help [COMMAND|TOPIC]",
        least: 0,
        most: 1,
        reads: false,
        brief: "this list, one command in full, or a topic",
        text: "`office COMMAND --help` gives the same as `office help COMMAND`.",
    },
    Command {
        name: "--version",
        usage: "office --version [-o FILE] [--json]",
        least: 0,
        most: 0,
        reads: false,
        brief: "the versions of the command and the library, and the specification",
        text: "\
One line each: the word command, library or specification, and its version.

--json: command_version, library_version, specification.",
    },
];

const COMMON: &str = "\
Files: a readable file or a binary record, told apart by the first byte, which is 0 in a record, and 1 or 2 in one of meters;
--record and --text before a file force its reading; - is standard input; -o FILE writes the answer to a file, -o - to standard
output (`meter` writes the house there).
Status: 0 an answer; 1 the library refuses, in words with its number and place, on standard output, and a file of -o is left
alone; with -o - the words stand on standard error, so that a pipe gets an answer or nothing (`pack`, `show`, and `draw` with
refusal 16, do their work and write the file all the same, and the refusal stands on standard error); 2 misuse, an unreadable
file, mistakes in a readable file or an answer that can't be written, on standard error. There is no other. `office help N`
explains refusal N.
Warnings of what is nearly always a slip stand on standard error and change no status; with --strict there is then no answer,
and the status is 2.
--json: every object has schema (1), command, files, refusal (null, or number, text, places) and warnings; mistakes of a text
come as mistakes and more_mistakes.
";

/// Names for a message.
fn joined(names: impl Iterator<Item = &'static str>) -> String {
    names.collect::<Vec<_>>().join(", ")
}

/// How a command is used.
pub fn usage(name: &str) -> &'static str {
    COMMANDS.iter().find(|command| command.name == name).map_or("", |command| command.usage)
}

/// Whether the words of a command name files.
pub fn reads(name: &str) -> bool {
    COMMANDS.iter().any(|command| command.name == name && command.reads)
}

fn names() -> String {
    joined(COMMANDS.iter().map(|command| command.name))
}

/// What an installer does first, as the list begins.
const FIRST: &[(&str, &str)] = &[
    ("office new house -o house.txt", "a house to put your own numbers in"),
    ("office new table -o table.csv", "a table of pipe sizes to put your supplier's numbers in"),
    ("office choose house.txt table.csv", CHOOSES),
];

/// What `choose` gives, in plain words.
const CHOOSES: &str = "the cheapest pipes that bring enough head to every end, and the pump set that they need";

/// A refusal by its number, as the list has it.
const BY_NUMBER: (&str, &str) = ("N", "refusal N: what it means, what usually leads to it, what to try");

/// What the word behind `help` names: a command, a topic, or a refusal's number.
pub fn of(name: &str) -> Result<Outcome, Misuse> {
    if COMMANDS.iter().any(|command| command.name == name) {
        return of_command(name);
    }
    let topic = TOPICS.iter().find(|topic| topic.name == name).map(|topic| (topic.text)());
    topic.or_else(|| topics::refusal(name)).map(Outcome::answer).ok_or_else(|| {
        let last = Refusal::all().map(|refusal| refusal.number()).max().unwrap_or(0);
        let topics = joined(TOPICS.iter().map(|topic| topic.name));
        let (name, commands) = (word(name), names());
        Misuse::Words(format!(
            "there is no help on `{name}`; the commands are {commands}; the topics are {topics}, and a refusal's number, 1 to \
             {last}"
        ))
    })
}

/// The help of a command, or the list of all.
pub fn of_command(name: &str) -> Result<Outcome, Misuse> {
    if name == "help" {
        return Ok(Outcome::answer(list()));
    }
    match COMMANDS.iter().find(|command| command.name == name) {
        Some(command) => {
            let text = format!("{}\n\n{}.\n\n{}\n\n{COMMON}", command.usage, command.brief, command.text);
            Ok(Outcome::answer(text))
        }
        None => none(name),
    }
}

/// A command that there is not.
pub fn none(name: &str) -> Result<Outcome, Misuse> {
    let name = word(name);
    Err(Misuse::Words(format!("there is no command `{name}`; the commands are {}", names())))
}

fn list() -> String {
    let commands: Vec<_> = COMMANDS.iter().map(|command| (command.usage.to_string(), command.brief)).collect();
    let topics = TOPICS.iter().map(|topic| (topic.name, topic.brief)).chain([BY_NUMBER]);
    let topics: Vec<_> = topics.map(|(name, brief)| (format!("office help {name}"), brief)).collect();
    let first: Vec<_> = FIRST.iter().map(|(words, brief)| (words.to_string(), *brief)).collect();
    let width = commands.iter().chain(&topics).map(|(usage, _)| usage.len()).max().unwrap_or(0);
    let lines = |rows: &[(String, &str)]| {
        rows.iter().map(|(usage, brief)| format!("  {usage:<width$}  {brief}\n")).collect::<String>()
    };
    let (first, commands, topics) = (lines(&first), lines(&commands), lines(&topics));
    let own = COMMANDS.iter().find(|command| command.name == "help").map_or("", |help| help.text);
    let what = "office: pipe sizes for branched house networks. To start with:";
    format!("{what}\n\n{first}\n{commands}\n{topics}\n{own}\n\n{COMMON}")
}
