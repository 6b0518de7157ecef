//! What the generated cases reached, counted, so that a generator that goes dull is noticed.

mod heat;
mod lines;
mod losses;
mod meters;
mod notes;
mod searches;
mod small_flows;
mod taps;

use crate::case::Call;
use crate::model::{self, faults::LAST};
use std::fmt;

macro_rules! situations {
    ($($name:ident: $text:expr,)*) => {
        /// Something that the cases must reach.
        #[derive(Clone, Copy, Debug, PartialEq, Eq)]
        pub enum Situation { $($name,)* }

        const TEXTS: &[(Situation, &str)] = &[$((Situation::$name, $text),)*];
    };
}

situations! {
    Sections63: "a result for 63 sections",
    Chosen63: "a list chosen for 63 sections",
    NoList63: "no suitable list for 63 sections",
    PumpForks: "several sections at the pump",
    InnerKind: "fixtures at the end of a section that is a parent",
    AllKinds: "all twelve kinds in one house",
    ChildDrawsMore: "a section with more flow than its parent",
    Tap200: "one tap of 200 ml/s sets a section's flow, of all the water",
    Tap300: "one tap of 300 ml/s sets a section's flow, of all the water",
    TapLine140: "one tap of 140 ml/s sets a section's flow in a cold or a hot line",
    TapLine200: "one tap of 200 ml/s sets a section's flow in a cold or a hot line",
    UnderTotalTap: "a flow in a cold or a hot line that is under one tap of all the water",
    TapOfOwnEnd: "one tap of a section's own end alone sets its flow",
    TapFromBelow: "one tap sets a section's flow that draws more than those of its own end",
    TapBesideMore: "one tap sets a section's flow where a kind that it does not serve draws more",
    TapUnderAverage: "one tap sets the flow of a section and not of its parent",
    TapOverAverage: "one tap sets the flow of a section and not of one below it that serves several Z",
    TapUnderMore: "a section with more flow than its parent, whose flow one tap sets",
    AverageUnderTap: "an average 1 ml/s under one tap",
    AverageAtTap: "an average equal to one tap in a section that serves several Z",
    AverageOverTap: "an average 1 ml/s over one tap in a section that serves several Z",
    TapInFlow: "a flow result with a section's flow that one tap sets",
    TapInLosses: "losses given with a section's flow that one tap sets",
    TapInRating: "a list rated with a section's flow that one tap sets",
    TapInChoice: "a list chosen with a section's flow that one tap sets",
    TapAlone13: "13 where by the averages the list would be rated",
    TapAlone16: "16 where by the averages a list would suit",
    TapDearer: "a list chosen where by the averages a cheaper one would suit",
    TapInDuty: "a duty that one tap sets",
    TapInMeter: "a meter given at a flow that one tap sets",
    TapOtherMeter: "a meter given where by the average another one would win",
    TapInHouseAlone: "one tap sets the house's flow and no section's",
    TapInSectionAlone: "one tap sets a section's flow and not the house's",
    HouseAverageAtTap: "an average equal to one tap in a house of several Z",
    TapCrowded: "one tap sets a flow where a sum is exactly 100,000 for each of at most 200 fixtures",
    TapTooCrowded: "9 where one tap would set a section's flow",
    MUnder15000: "m under 15,000",
    M15000: "m exactly 15,000",
    MAtKey: "m at a key over 15,000",
    HourAtKey: "hour sum at a key",
    Hour400: "hour sum exactly 400,000,000",
    HourOver400: "hour sum over 400,000,000",
    Fixtures200: "9 at exactly 200 fixtures in the house",
    Fixtures201: "201 fixtures in the house pass where 200 would not",
    Section200: "9 from a section of exactly 200 fixtures alone",
    Section201: "a section of 201 fixtures passes where 200 would not",
    ExactlyCrowded: "at most 200 fixtures and a sum of exactly 100,000 for each",
    FirstRowHit: "a flow at the first row",
    InnerRowHit: "a flow at a row between",
    LastRowHit: "a flow at the last row",
    UnderFirstRow: "a flow under the first row",
    OneUnderFirstRow: "a flow one under the first row",
    SmallInLosses: "losses given with a flow under the first row of its size",
    SmallInRating: "a list rated with a flow under the first row of its size",
    SmallInChoice: "a list chosen with a flow under the first row of its size",
    SmallVelocityUp: "a velocity under the first row that is rounded up",
    SmallSlopeUp: "a loss under the first row that would be less by a slope that is rounded down",
    SmallSlopeExact: "a loss under the first row that would be less by a slope that is not rounded",
    SmallSlopeOwn: "a loss under the first row that would be another by the velocity's ratio",
    SmallLimit: "a velocity under the first row that the limit lets through, and not the first row's",
    SmallCheaper: "a list chosen that costs less than any where small flows take the whole first row",
    SmallSuits: "a list chosen where none would suit if small flows took the whole first row",
    BetweenRows: "a flow between two rows",
    OneOverLastRow: "13 or 16 with a flow one over a last row",
    AtLimit: "a velocity at the limit",
    OneOverLimit: "a velocity one over the limit",
    NegativeHead: "a negative required head rated",
    NegativeChosen: "a list chosen with H under the meter loss",
    ChosenNegative: "a list chosen whose required head is negative",
    GreatHead: "a required head over 100,000,000 cm",
    PumpZero: "pump head 0",
    PumpAbove: "pump head above 0",
    DictatingTie: "several sections reach the greatest",
    DictatingLater: "the dictating section is not the first",
    DictatingKind0: "a section of kind 0 dictates",
    HeadExact: "a list chosen whose required head is exactly H",
    HeadOneShort: "no suitable list at H, but one at H + 1",
    GreatCost: "a least cost over 2,147,483,647",
    TiesInCost: "several cheapest lists",
    Tried: "a least cost found by brute force too",
    TriedNone: "no suitable list by brute force too",
    SizeTooLong: "a list chosen where a size loses more than a section has",
    SizeNoBetter: "a list chosen where a size neither loses nor costs less than a narrower one",
    OneSizeLeft: "a list chosen where one size alone is left of several that serve a section",
    EqualSizes: "a list chosen where two sizes lose the same and cost the same at a section",
    OneHeadAtPump: "a list chosen where one head alone is of use at the pump",
    OneHeadAtParent: "a list chosen where one head alone is of use at the end of a section that is a parent",
    HeadToSpare: "a list chosen where the pump has more head than is of use",
    HeadAllUsed: "a list chosen where the greatest losses would use more head than the pump has",
    SizeNotOffered: "a list chosen where a size is not worth offering from some head on",
    RefusedTogether: "no suitable list, though each section alone could be served from the pump",
    MeterTie: "a meter given where a later one loses as much and has less resistance",
    MetersAlike: "a meter given where two others that qualify lose as much",
    TieOfDesigns: "a meter given where a later one of the other type loses as much",
    VaneOver250: "a vane meter given that loses 251 to 500 cm",
    MostLossVane: "a vane meter given that loses 500 cm",
    MostLossTurbine: "a turbine meter given that loses 250 cm",
    VaneOneOver: "18 with a vane meter that loses 501 cm",
    TurbineOneOver: "18 with a turbine meter that loses 251 cm",
    ServiceExact: "a meter given whose service flow is the mean hour",
    ServiceOneShort: "18 with a service flow 1 under the mean hour",
    ServiceAlone: "18 with a meter that fails by its service flow alone",
    LossAlone: "18 with a meter that fails by its loss alone",
    LeastLossOut: "a meter given where one that loses less does not qualify",
    HouseFlowOwn: "a meter given where the house's flow is no section's",
    SectionWouldDo: "18 by losses that would pass at every section's flow",
    MeterFirst: "the first of eight meters given",
    MeterLast: "the last of eight meters given",
    WideLoss: "a meter whose loss is over 65,535 cm and would qualify if it were cut to 16 bits",
    WideMean: "18 with a mean hour over 65,535 l/h",
    LossKept: "a meter given that loses what the job had",
    NoMeters: "17 with a list of no bytes",
    NineMeters: "17 with nine meters",
    GreatestLoss: "a section that loses 4,259,775 cm by its size",
    LossesInLess: "losses given into a buffer that is too short for a rating's result",
    LossesNeedMore: "14 for losses in a buffer that is long enough for a rating's result",
    InTurn: "a list rated, and the two calls in turn give the same figures",
    InTurnRefused: "a list refused by rating, and the first of the two calls gives the same number",
    LossAtMost: "heads of given losses with one of 4,259,775 cm",
    LossOneOver: "19 by a loss of 4,259,776 cm alone",
    FirstLossOver: "19 by the first of several losses alone",
    LastLossOver: "19 by the last of several losses alone",
    LossByteShort: "19 with losses that are one byte short",
    LossByteLong: "19 with losses that are one byte long",
    LossTooFew: "19 with one loss too few, all of them at most 4,259,775 cm",
    LossTooMany: "19 with one loss too many, all of them at most 4,259,775 cm",
    LossTens: "19 with ten bytes for each section",
    LossesBothWrong: "19 with losses of the wrong length, and one over 4,259,775 cm",
    NoLosses: "19 with losses of no bytes",
    GivenZero: "heads of given losses that are all 0",
    GivenUnderOne: "a required head of given losses that is less than with 1 cm in every section",
    GivenLeast: "a required head of -1,000 cm, of given losses",
    GivenNegative: "a negative required head of given losses",
    GivenGreat: "a required head over 100,000,000 cm of given losses",
    GivenTie: "several sections reach the greatest with given losses",
    GivenKind0: "a section of kind 0 dictates with given losses",
    GivenNoPath: "given losses that would require another head as path losses",
    GivenOtherSection: "given losses by which another section would dictate as path losses",
    GivenPumpZero: "pump head 0 with given losses",
    GivenPumpOne: "pump head 1 with given losses",
    GivenAtGuaranteed: "a required head of given losses that is just the guaranteed head",
    Given63: "heads of given losses for 63 sections",
    OneByteLong: "4 with a record of version 1 that has 41 + 10 × S bytes",
    OneByteShort: "4 with a record of version 2 that has 40 + 10 × S bytes",
    NoService4: "4 with a record of version 2 that ends before its service",
    NoService3: "3 with a record of version 2 that ends before its service",
    ServiceOver: "3 by a service of 3 alone",
    ServiceFar: "3 by a service of 255 alone",
    ServiceBefore4: "3 by a service over 2 alone, with a length that is wrong too",
    ParentOver: "5 with a record of version 1 whose first parent is over 2",
    ParentAsLine: "5 with a record of version 1 whose first parent is 1 or 2",
    LineAlone8: "8 with all the water, and a result for a cold or a hot line of the same house",
    LineCrowded: "9 for a cold or a hot line, of a house that passes with all the water",
    LineCheaper: "a list chosen for a cold or a hot line that costs less than any for all the water",
    LineSuits: "a list chosen for a cold or a hot line where none suits for all the water",
    TwinResult: "a result of version 1 that version 2 with service 0 has too",
    TwinRefused: "a refusal of version 1 that version 2 with service 0 has too",
    HeatAlone20: "20 where no other refusal applies",
    HeatAlone21: "21 where no other refusal applies",
    HeatTotal: "20 for a record of version 1",
    HeatNamed: "20 for a record of version 2 with service 0",
    HeatCold: "20 for a cold line",
    HeatColdest: "a heat flow with cold water of 0 °C",
    HeatWarmest: "a heat flow with cold water of 30 °C",
    HeatNoLoss: "a heat flow without a stated loss",
    HeatMostLoss: "a heat flow with a stated loss of 1,000,000 W",
    HeatOneWarmer: "21 by cold water of 31 °C alone",
    HeatOneLossier: "21 by a stated loss of 1,000,001 W alone",
    HeatBothOver: "21 with both out of range",
    HeatOver55: "21 by cold water of 55 °C or more alone",
    HeatCutT: "21 by a temperature alone whose last byte is at most 30",
    HeatNegative: "21 by -1, as 32 bits without a sign have it",
    HeatWhole: "a heat flow of whole watts in both hours",
    HeatUp: "a heat flow that is rounded up in both hours",
    HeatMeanUp: "a mean hour's heat flow that would be less by the day's quotient without rounding",
    HeatMeanMore: "a mean hour's heat flow over the greatest hour's",
    HeatMeanLess: "a mean hour's heat flow under the greatest hour's",
    HeatGreat: "a heat flow over 16,777,215 W",
    OutExact: "a result in a buffer of exactly its length",
    OutLonger: "a result in a longer buffer",
    OutOneShort: "14 with a buffer one byte short",
    OutEmpty: "14 with an empty buffer",
    WorkExact: "a list chosen in a workspace of exactly its length",
    WorkLonger: "a list chosen in a longer workspace",
    WorkOnes: "a list chosen in a workspace of nothing but ones",
    WorkOneShort: "15 with a workspace one byte short",
    WorkEmpty: "15 with an empty workspace",
    WorkKept: "a refusal under 16 that had a workspace to leave alone",
    NoJob: "a job of no bytes",
    NoCatalogue: "a catalogue of no bytes",
    NoSizes: "a list of no sizes",
}

/// A count for each number, 0 too.
type ByNumber = [u64; LAST as usize + 1];

/// How often each thing was reached. Situations of a size read at a flow are counted reading by reading, the others case by
/// case.
#[derive(Clone, Debug)]
pub struct Counters {
    pub cases: u64,
    /// By call, in the order of `Call::ALL`, and by the number given back.
    answers: [ByNumber; Call::ALL.len()],
    /// Results by call, and by version and service as `lines::NAMES` has them.
    lines: [[u64; lines::NAMES.len()]; Call::ALL.len()],
    /// By call, and by two refusals that both applied where the first was given back.
    pairs: [[ByNumber; LAST as usize + 1]; Call::ALL.len()],
    reached: Vec<u64>,
}

impl Default for Counters {
    fn default() -> Counters {
        let none: ByNumber = [0; LAST as usize + 1];
        let (answers, pairs) = ([none; Call::ALL.len()], [[none; LAST as usize + 1]; Call::ALL.len()]);
        let lines = [[0; lines::NAMES.len()]; Call::ALL.len()];
        Counters { cases: 0, answers, lines, pairs, reached: vec![0; TEXTS.len()] }
    }
}

impl Counters {
    /// How often a call gave a number back.
    pub fn answers(&self, call: Call, number: u32) -> u64 {
        self.answers[call as usize][number as usize]
    }

    /// How often both refusals applied and the earlier was given back.
    pub fn pair(&self, call: Call, earlier: u32, later: u32) -> u64 {
        self.pairs[call as usize][earlier as usize][later as usize]
    }

    pub fn reached(&self, situation: Situation) -> u64 {
        self.reached[situation as usize]
    }

    /// What was reached less often than this: numbers, results of each version and service, neighbours in the order of refusals, and
    /// situations.
    pub fn rarer_than(&self, times: u64) -> Vec<String> {
        let mut rare = Vec::new();
        let mut ask = |count: u64, what: String| {
            if count < times {
                rare.push(format!("{count} times: {what}"));
            }
        };
        for call in Call::ALL {
            let order = model::order_of(call);
            for number in order.iter().chain(&[0]) {
                ask(self.answers(call, *number), format!("{} gives back {number}", call.name()));
            }
            for (place, name) in lines::results(call) {
                ask(self.lines[call as usize][place], format!("{} gives a result for {name}", call.name()));
            }
            for two in order.windows(2) {
                ask(self.pair(call, two[0], two[1]), format!("{} meets {} with {}", call.name(), two[0], two[1]));
            }
        }
        for (situation, text) in TEXTS {
            ask(self.reached(*situation), text.to_string());
        }
        rare
    }

    fn saw(&mut self, situation: Situation, met: bool) {
        self.reached[situation as usize] += u64::from(met);
    }
}

impl fmt::Display for Counters {
    fn fmt(&self, f: &mut fmt::Formatter) -> fmt::Result {
        writeln!(f, "{} cases", self.cases)?;
        for call in Call::ALL {
            write!(f, "{:6}", call.name())?;
            for number in std::iter::once(&0).chain(model::order_of(call)) {
                write!(f, "  {number}: {}", self.answers(call, *number))?;
            }
            writeln!(f)?;
            write!(f, "  results")?;
            for (place, name) in lines::results(call) {
                write!(f, "  {name}: {}", self.lines[call as usize][place])?;
            }
            writeln!(f)?;
            write!(f, "  with the next fault too")?;
            for two in model::order_of(call).windows(2) {
                write!(f, "  {}+{}: {}", two[0], two[1], self.pair(call, two[0], two[1]))?;
            }
            writeln!(f)?;
        }
        for (situation, text) in TEXTS {
            writeln!(f, "{:9} {text}", self.reached(*situation))?;
        }
        Ok(())
    }
}
