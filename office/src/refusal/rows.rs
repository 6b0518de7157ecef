//! The table of refusals in words: what each means, what usually leads to it, and what to try. A request that adds
//! a number adds a row here and a case to [`Refusal`].

use super::Refusal::{self, *};

pub struct Row {
    pub refusal: Refusal,
    /// What it means, in full sentences, as a message has it. The ranges stand here and in no other sentence of the row.
    pub text: &'static str,
    /// The same for people who lay pipes.
    pub plain: &'static str,
    /// What usually leads to it, a sentence each.
    pub causes: &'static [&'static str],
    /// What to try, a sentence each.
    pub remedies: &'static [&'static str],
}

/// In the order of their numbers, from 1.
pub const ROWS: &[Row] = &[
    Row {
        refusal: JobLength,
        text: "The job record is under 40 bytes long, or the length that it states is not the number of bytes lent.",
        plain: "The record of the house is not whole, or it is another file.",
        causes: &[
            "The record was cut off while it was copied or sent, or it was copied as text, which changes bytes.",
            "Another file was given: a catalogue, a list of losses, or an empty one.",
            "A readable house has a line `stated length`.",
        ],
        remedies: &[
            "Make the record again from the readable house (`office pack`), and copy it as a binary file.",
            "Look whether the files are in their order: the job first, then the catalogue.",
            "Take the line `stated length` out of the house.",
        ],
    },
    Row {
        refusal: JobVersion,
        text: "The version of the job record is neither 1 nor 2.",
        plain: "The record of the house has a layout that this program does not know.",
        causes: &["Another program, or a newer one, wrote the record.", "A readable house has a line `version`."],
        remedies: &[
            "Make the record again from the readable house (`office pack`).",
            "Take the line `version` out of the house.",
            "Ask for a newer `office`; `office --version` says which one this is.",
        ],
    },
    Row {
        refusal: HeaderRange,
        text: "A field of the house is out of range. The local-loss tenths k are 2 or 3, the section count is 1 to 63, \
               the hours of use a day are 1 to 24, the meter loss is 0 to 1,000 cm, the guaranteed head and the \
               delivered head are 0 to 6,000 cm, and the velocity limit is 1 to 3,000 mm/s; in version 2 the service is 0 \
               (total), 1 (cold) or 2 (hot).",
        plain: "A figure for the house as a whole can't be right: a head, the hours, the local losses, the velocity limit, the \
                number of pipes or the line that it is.",
        causes: &[
            "A head or the velocity limit has the wrong unit: m where cm were meant, or m/s where mm/s were.",
            "The local losses are a percentage or those of another kind of network.",
            "The house is drawn in more sections than the library takes.",
            "Another program wrote the record, with a service that there is not, or with its sections where the service stands.",
        ],
        remedies: &[
            "Correct the field that is named, in its unit.",
            "Where it is the service, write `service total`, `service cold` or `service hot` in the readable house, or no such line, \
             and pack it again.",
            "Where there are too many sections, make one of two pipes that follow each other without a branch or fixtures \
             between them: their lengths together, and the end of the second.",
        ],
    },
    Row {
        refusal: SectionBytes,
        text: "The length of the job record is not 40 bytes, or 41 in version 2, and 10 bytes for each of its sections.",
        plain: "The record of the house has more or fewer pipes than it says.",
        causes: &[
            "Another program wrote the record, with a wrong section count or with bytes behind the sections.",
            "The version was changed and the service's byte was not: a house with a service has one more.",
        ],
        remedies: &[
            "Make the record again from the readable house (`office pack`), which counts the sections itself.",
            "`office show` says how many bytes the section count asks for.",
        ],
    },
    Row {
        refusal: SectionRules,
        text: "A section breaks its own fields' rules. Its parent is less than its own number, its kind is 0 to 12, kind \
               0 goes with no fixtures and free head 0, other kinds with at least one fixture, its length is 1 to 5,000 \
               dm, its elevation -1,000 to 6,000 cm, and its free head 0 to 1,000 cm.",
        plain: "A pipe has a figure that can't be right, or it hangs from a pipe that comes after it.",
        causes: &[
            "The sections are numbered from the far end, so that one hangs from a higher number, or two hang from each other.",
            "An elevation is taken from the street or from the sea, and not from the pump axis; or its sign is missing.",
            "A length, an elevation or a free head has the wrong unit.",
            "A section has fixtures and no kind, or a kind and no fixtures.",
        ],
        remedies: &[
            "Number the sections from the pump outward.",
            "Give elevations from the pump axis, with a minus sign below it.",
            "Write `kind none` for a pipe that ends at a branch without fixtures, and leave out `fixtures` and `free`.",
        ],
    },
    Row {
        refusal: ChildlessKind,
        text: "A childless section has kind 0. A section that is nobody's parent has a kind above 0.",
        plain: "A pipe leads nowhere: it ends at a branch from which nothing goes on.",
        causes: &[
            "A pipe leads to a place where nothing is connected.",
            "The sections behind a branch were taken out, or `from` names another section in them.",
        ],
        remedies: &[
            "Give the last pipe of each branch its kind, its fixtures and their free head.",
            "Take a pipe that serves nothing out, and number the others again without a gap.",
        ],
    },
    Row {
        refusal: Residents,
        text: "A kind has residents without fixtures, or fixtures without residents. A kind has residents exactly when it \
               has fixtures somewhere in the house.",
        plain: "People are to be served by fixtures that are not there, or fixtures serve nobody.",
        causes: &[
            "The residents have one kind and the sections another, as two kinds of hotel.",
            "A part of the house was taken out, and its residents stayed, or the reverse.",
        ],
        remedies: &[
            "Give the residents and the sections the same kind; `office kinds` lists them.",
            "Take out the line `residents` of a kind that the house does not have, or add the one that is missing.",
        ],
    },
    Row {
        refusal: DemandOverTable,
        text: "The demand is beyond Table 2. The house's m, which is how many fixtures are in use at once on average, or \
               the house's sum for the hour, is over 400,000,000 millionths.",
        plain: "The house uses more water than the standard's table of simultaneous use reaches.",
        causes: &["A count of residents has a digit too many.", "The residents of several houses stand in one file."],
        remedies: &[
            "Correct the residents; the message says how many would pass.",
            "Give each house a pump set and a file of its own.",
        ],
    },
    Row {
        refusal: DemandOverFixtures,
        text: "The demand is too great for the fixtures. With at most 200 fixtures m, which is how many of them are in use \
               at once on average, may be at most 100,000 millionths for each fixture; the house, a section, or the house's \
               hour is over that.",
        plain: "The fixtures are few and in use for much of the time, for which the standard has another table; the library \
                leaves that one out.",
        causes: &[
            "Rooms or flats were counted, and not their fixtures: each tap, shower and bath counts.",
            "A count of residents has a digit too many, or that of the fixtures one too few.",
            "A cold or a hot line may be refused where all water of the house is not: it may feed fewer fixtures, and each gives less.",
        ],
        remedies: &[
            "Count the fixtures at the sections' ends again, of a line those that it feeds.",
            "Correct residents or fixtures; the message says how many fixtures would do and, of a house for all its water, how many \
             residents would pass.",
            "Leave the residents of a cold or a hot line those of the whole house: the norms are of the line's part of their water.",
        ],
    },
    Row {
        refusal: CatalogueShape,
        text: "The catalogue is under 7 bytes long, or its length, its version or its counts are wrong. The version is 1, \
               there are 1 to 12 sizes with 2 to 64 rows each, and the length is 7 bytes and for each size 4 bytes and 8 \
               bytes for each row.",
        plain: "The table of pipe sizes is not whole, is another file, or has too many or too few sizes or rows.",
        causes: &[
            "The table has more sizes or more rows than the library takes, or a size with a single row.",
            "The catalogue was cut off while it was copied or sent, or a job or a list of losses was given in its place.",
            "A readable table has a line `stated length` or `version`.",
        ],
        remedies: &[
            "Leave out sizes that the house has no use for, or rows between others.",
            "Give each size a second row, with a greater flow.",
            "Make the catalogue again from the readable table (`office pack`).",
        ],
    },
    Row {
        refusal: CatalogueRules,
        text: "A size or a row of the catalogue breaks its rules. Bores rise strictly from at least 1 mm, prices are 1 to \
               10,000, the flows of a size rise strictly from 1 to 1,000,000 ml/s, and its velocities and slopes are at \
               least 1 and don't fall.",
        plain: "The table of pipe sizes has a figure that can't be right, or its lines are out of order.",
        causes: &[
            "The sizes are not numbered in the order of their bores, or two have the same bore.",
            "Two rows of a size are the wrong way round, or a digit is missing in one.",
            "The prices are in a coin so small that their numbers are too great.",
        ],
        remedies: &[
            "Number the sizes from the narrowest bore on, and order the rows of a size by their flow.",
            "Compare the row that is named with the supplier's table.",
            "Give all prices in a larger unit; the cost comes in the same one.",
        ],
    },
    Row {
        refusal: SizeList,
        text: "The list of sizes does not have one size for each section, or it names a size that the catalogue does not \
               have.",
        plain: "The list of sizes does not go with this house or with this table.",
        causes: &[
            "A section was added or taken out, and the list stayed as it was.",
            "The list has bores in mm in place of size numbers.",
        ],
        remedies: &[
            "Give a size number of the table for each section, in the order of the sections.",
            "Copy the line `sizes` of `office choose`, and change single numbers in it.",
        ],
    },
    Row {
        refusal: SizeTooSmall,
        text: "A section's size is too small. The section's flow is over the last row of its size, or its velocity passes \
               the limit.",
        plain: "A pipe is too narrow for the water that has to pass through it.",
        causes: &[
            "The pipe is too narrow for what is behind it; near the pump it carries the flow of the whole house.",
            "One fixture alone sets the pipe's flow, where the message has `one tap of` (`office help flow`).",
            "The velocity is worked out from a first row at a greater flow, where the message has `under the first row` (`office \
             help rate`).",
            "The rows of the size end below the section's flow, although the supplier's table goes on.",
        ],
        remedies: &[
            "Give the section that is named a wider size.",
            "Let `office choose` find a list; it takes no size that is too small.",
            "Add the rows with greater flows to the table.",
            "Raise the velocity limit, if the rules for the house allow it.",
        ],
    },
    Row {
        refusal: ResultShort,
        text: "The result buffer is too short.",
        plain: "The program that calls the library has set aside too little space for the answer.",
        causes: &["A program that calls the library lends too few bytes for the result. `office` itself lends enough."],
        remedies: &["Tell the program's author: the header `order.h` says how many bytes each call writes."],
    },
    Row {
        refusal: WorkShort,
        text: "The workspace is too short.",
        plain: "The program that calls the library has set aside too little space for the search.",
        causes: &[
            "A program that calls the library lends too few bytes to work in: choosing needs more with more sections and \
             with a greater delivered head. `office` itself lends enough.",
        ],
        remedies: &["Tell the program's author: the header `order.h` says how many bytes a house needs."],
    },
    Row {
        refusal: NoSuitableList,
        text: "There is no suitable list of sizes. With every choice some section's size can't serve its flow, a velocity \
               passes the limit, or the required head is more than the delivered head.",
        plain: "No pipes of this table bring enough head to every end at the velocity that is allowed.",
        causes: &[
            "The delivered head is too little for the highest or the furthest end.",
            "The widest size of the table is too narrow for the flow near the pump.",
            "One fixture alone sets a pipe's flow, where the message has `one tap of` (`office help flow`).",
            "The velocity is worked out from a first row at a greater flow, where the message has `under the first row` (`office \
             help rate`).",
            "An elevation, a length or a head has the wrong unit.",
        ],
        remedies: &[
            "Raise the delivered head to what the message names, and choose a pump set that gives it.",
            "Add wider sizes to the table.",
            "Raise the velocity limit, if the rules for the house allow it.",
            "Look at the drawing: `office draw` draws such a house too, and marks where it fails.",
        ],
    },
    Row {
        refusal: MeterList,
        text: "The list of meters breaks its rules. It has 1 to 8 meters of 5 bytes each, a meter's type is 1 (vane) or 2 \
               (turbine), and its resistance and its service flow are at least 1.",
        plain: "The list of meters is not whole, it has too many, or a meter has a figure that can't be right.",
        causes: &[
            "Another file was given: a house, a table of pipes or a list of losses.",
            "The list was cut off while it was copied or sent, or it holds the supplier's whole range.",
            "A resistance or a service flow was left out.",
        ],
        remedies: &[
            "Look whether the files are in their order: the house first, then the meters.",
            "Write the list as a readable one, with the meters that may be had for this house; `office new meters` gives one to \
             start from.",
            "Correct the meter that is named.",
        ],
    },
    Row {
        refusal: NoMeter,
        text: "No meter of the list qualifies. At the house's design flow a vane meter may lose at most 500 cm and a turbine \
               meter at most 250 cm, and the mean hour is at most the meter's service flow.",
        plain: "Every meter of the list is too small for this house.",
        causes: &[
            "The list has only meters for smaller houses.",
            "A resistance or a service flow has the wrong unit.",
            "The residents of the house are too many or its hours of use too few; how many fixtures it has plays no part.",
        ],
        remedies: &[
            "Add larger meters to the list: they lose less and have a greater service flow.",
            "Look at the limit that each meter breaks, and by how much.",
            "Where no list can hold a meter for the house, write the loss of the one that is fitted into the house.",
        ],
    },
    Row {
        refusal: LossList,
        text: "The list of losses does not have one loss of 4 bytes for each section, or a loss is over 4,259,775 cm, which no \
               table can give.",
        plain: "The list of losses does not go with this house, or a loss is more than any pipe can have.",
        causes: &[
            "The losses are those of another house, or of this one before a section was added or taken out.",
            "A loss has the wrong unit.",
            "The list was cut off while it was copied or sent.",
            "Another file was given: a house, a table of pipes, a list of sizes or a list of meters.",
        ],
        remedies: &[
            "Give each section of the house its loss, one line each; `office new losses` gives a list to start from.",
            "Work the losses out again with `office losses`, for the house as it is now.",
            "Correct the loss that is named, in the unit of the list's header.",
            "Look whether the files are in their order: the house first, then the losses.",
        ],
    },
    Row {
        refusal: NotHot,
        text: "The heat flow is asked for a job that isn't hot. A hot line's job has version 2 and service 2.",
        plain: "Only a hot line has its water heated, and the house that was given is not written as one.",
        causes: &[
            "The house has no line `service`, or `service total`, so that it is for cold and hot water together.",
            "The house of the cold line was given.",
        ],
        remedies: &[
            "Give the house of the hot line: a file of its own with a line `service hot`, and the pipes and fixtures of that \
             line.",
            "Give all residents in it: the norms of a hot line are of its part of their water (`office kinds hot`).",
        ],
    },
    Row {
        refusal: HeatRange,
        text: "The cold water's temperature or the heat loss is out of range. The temperature is 0 to 30 degrees C, and the loss \
               0 to 1,000,000 W.",
        plain: "The cold water can't be as warm as that, or the pipes can't lose as much heat.",
        causes: &[
            "The temperature is that of the hot water, or it is in degrees F.",
            "The loss is in another unit than W.",
        ],
        remedies: &[
            "Give the temperature of the water that the waterworks deliver in winter, in degrees C.",
            "Give the heat that the line's own pipes lose, and their circulation if there is one, in W.",
        ],
    },
];
