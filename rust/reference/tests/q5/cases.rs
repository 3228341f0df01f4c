//! Additions, comparisons and broken reports worked out by hand.

/// A report: stores, lines, lines for each mark 0 to 4, stores for each answer
/// 0, 11 and 12.
pub type Report = [u64; 10];

/// The empty report.
pub const EMPTY: Report = [0; 10];

/// A report of two stores.
pub const TWO: Report = [2, 10, 1, 2, 3, 4, 0, 1, 0, 1];

/// A report of six stores, in which no number is 0.
pub const SIX: Report = [6, 25, 7, 6, 5, 4, 3, 3, 2, 1];

/// The most lines in a report: 4,194,304 for each of 1,000,000 stores.
pub const ALL_LINES: u64 = 4_194_304_000_000;

const MAX: u64 = u64::MAX;

/// A result that is added to a report, and the report after, or the refusal.
pub struct Addition {
    pub says: String,
    pub wear: Vec<u64>,
    pub marks: Vec<u8>,
    pub answer: u32,
    pub due: Result<Report, u32>,
}

impl Addition {
    pub fn new(
        says: &str,
        wear: &[u64],
        result: (&[u8], u32),
        due: Result<Report, u32>,
    ) -> Addition {
        Addition {
            says: says.to_string(),
            wear: wear.to_vec(),
            marks: result.0.to_vec(),
            answer: result.1,
            due,
        }
    }
}

/// Additions that are taken: each mark and each answer, and reports up to the
/// last store.
pub fn taken() -> Vec<Addition> {
    let taken = |says, wear: Report, result, due| Addition::new(says, &wear, result, Ok(due));
    vec![
        taken(
            "each mark once but for faulty",
            EMPTY,
            (&[0, 1, 2, 3], 0),
            [1, 4, 1, 1, 1, 1, 0, 1, 0, 0],
        ),
        taken(
            "all faulty",
            EMPTY,
            (&[4, 4, 4, 4], 11),
            [1, 4, 0, 0, 0, 0, 4, 0, 1, 0],
        ),
        taken(
            "tables differ",
            EMPTY,
            (&[0, 0, 0, 0, 0], 12),
            [1, 5, 5, 0, 0, 0, 0, 0, 0, 1],
        ),
        taken(
            "a thousand lines",
            EMPTY,
            (&[4; 1000], 11),
            [1, 1000, 0, 0, 0, 0, 1000, 0, 1, 0],
        ),
        taken(
            "onto a report",
            TWO,
            (&[3, 3, 0, 4, 1, 3], 11),
            [3, 16, 2, 3, 3, 7, 1, 1, 1, 1],
        ),
        taken(
            "marks and answer that no repair gives together",
            TWO,
            (&[4, 4, 0, 0], 0),
            [3, 14, 3, 2, 3, 4, 2, 2, 0, 1],
        ),
        taken(
            "onto one store without lines",
            [1, 0, 0, 0, 0, 0, 0, 0, 0, 1],
            (&[2, 2, 2, 1], 12),
            [2, 4, 0, 1, 3, 0, 0, 0, 0, 2],
        ),
        taken(
            "the last store but one",
            [999_998, 4_000_000, 0, 0, 0, 0, 4_000_000, 0, 999_998, 0],
            (&[0, 0, 4, 4], 11),
            [999_999, 4_000_004, 2, 0, 0, 0, 4_000_002, 0, 999_999, 0],
        ),
        taken(
            "the last store",
            [999_999, 4_000_000, 0, 4_000_000, 0, 0, 0, 0, 0, 999_999],
            (&[1, 1, 1, 3], 0),
            [1_000_000, 4_000_004, 0, 4_000_003, 0, 1, 0, 1, 0, 999_999],
        ),
    ]
}

/// Additions of the longest results: the last store makes a report with all
/// lines that there can be.
pub fn longest() -> Vec<Addition> {
    let but_one = ALL_LINES - 4_194_304;
    let last = [999_999, but_one, 0, 0, 0, but_one, 0, 999_999, 0, 0];
    let full = [1_000_000, ALL_LINES, 0, 0, 0, ALL_LINES, 0, 1_000_000, 0, 0];
    let one = [1, 4_194_304, 0, 0, 4_194_304, 0, 0, 0, 0, 1];
    let two = [2, 8_388_608, 2, 0, 4_194_304, 4_194_302, 0, 0, 1, 1];
    let most = vec![3; 4_194_304];
    let mut mixed = most.clone();
    mixed[0] = 0;
    mixed[4_194_303] = 0;
    let mut spoilt = most.clone();
    spoilt[4_194_303] = 5;
    let long = vec![3; 4_194_305];
    vec![
        Addition::new("4,194,304 marks", &last, (&most, 0), Ok(full)),
        Addition::new("4,194,304 mixed marks", &one, (&mixed, 11), Ok(two)),
        Addition::new("the last of them no mark", &one, (&spoilt, 11), Err(15)),
        Addition::new("4,194,305 marks", &EMPTY, (&long, 0), Err(15)),
    ]
}

/// Results that are refused: too few marks, a byte that is no mark at any place,
/// another answer; and full reports.
pub fn refused() -> Vec<Addition> {
    let mut cases = vec![];
    let mut refused = |says: &str, wear: Report, marks: &[u8], answer| {
        cases.push(Addition::new(says, &wear, (marks, answer), Err(15)));
    };
    for length in 0..4 {
        let says = format!("{length} marks");
        refused(&says, TWO, &[1, 2, 3][..length], 0);
    }
    for (at, byte) in (0..67).flat_map(|at| [5, 6, 8, 64, 128, 255].map(|byte| (at, byte))) {
        let mut marks = [3; 67];
        marks[at] = byte;
        let says = format!("{byte} at {at}");
        refused(&says, TWO, &marks, 0);
    }
    for at in [0, 63, 64, 127, 128, 191, 192, 254, 255, 256, 511, 512, 599] {
        let mut marks = [4; 600];
        marks[at] = 5;
        refused(&format!("5 at {at} of 600"), TWO, &marks, 11);
    }
    let small = (1..=10).chain(13..=20);
    // Most of these are 0, 11 or 12 in their low 8 or 16 bits.
    let large = [256, 267, 268, 1 << 16, (1 << 16) + 11, 1 << 31, u32::MAX];
    for answer in small.chain(large) {
        refused(&format!("answer {answer}"), TWO, &[0, 1, 2, 3], answer);
    }
    let full = [1_000_000, 4_000_000, 4_000_000, 0, 0, 0, 0, 1_000_000, 0, 0];
    refused("1,000,000 stores already", full, &[0, 0, 0, 0], 0);
    refused("and no result", full, &[5], 9);
    cases
}

/// Reports that keep the limits: all that the request lists as wrong is right,
/// though no list of stores gives some of them.
pub fn whole_reports() -> Vec<(&'static str, Report)> {
    let (all, but_one) = (ALL_LINES, ALL_LINES - 4_194_304);
    vec![
        ("empty", EMPTY),
        ("two stores", TWO),
        ("six stores", SIX),
        ("a store without lines", [1, 0, 0, 0, 0, 0, 0, 0, 1, 0]),
        ("a store of one line", [1, 1, 0, 0, 0, 0, 1, 1, 0, 0]),
        (
            "one store of 4,194,304 lines",
            [1, 4_194_304, 4_194_303, 1, 0, 0, 0, 0, 0, 1],
        ),
        (
            "999,999 stores",
            [999_999, 4_000_000, 1, 2, 3, 3_999_990, 4, 999_996, 2, 1],
        ),
        (
            "999,999 stores of 4,194,304 lines",
            [999_999, but_one, but_one - 5, 0, 0, 5, 0, 999_999, 0, 0],
        ),
        (
            "1,000,000 stores without lines",
            [1_000_000, 0, 0, 0, 0, 0, 0, 333_333, 333_333, 333_334],
        ),
        (
            "1,000,000 stores of 4,194,304 lines",
            [1_000_000, all, 0, 0, 1, 0, all - 1, 1, 999_999, 0],
        ),
    ]
}

/// Reports of other lengths than ten.
pub fn of_other_lengths() -> Vec<Vec<u64>> {
    let long = [TWO, EMPTY, TWO].concat();
    let lengths = [0, 1, 2, 5, 7, 8, 9, 11, 12, 20, 30];
    let mut reports: Vec<Vec<u64>> = lengths.map(|length| long[..length].to_vec()).into();
    // Numbers that don't add up either: the length is tested first.
    reports.extend([vec![MAX; 9], vec![MAX; 11], vec![1], vec![3; 64]]);
    reports
}

/// Ten numbers that are no report: a sum is wrong, or a limit is passed.
pub fn broken_reports() -> Vec<(&'static str, Report)> {
    [
        one_number_wrong(),
        wrong_sums(),
        wrapped_sums(),
        past_limits(),
    ]
    .concat()
}

/// Each number in turn one more, one less, and the greatest there is: nothing
/// adds up.
fn one_number_wrong() -> Vec<(&'static str, Report)> {
    let wrong = |place: usize| {
        let number = SIX[place];
        let others = [
            ("one more", number + 1),
            ("one less", number - 1),
            ("the greatest", MAX),
        ];
        others.map(|(says, other)| {
            let mut report = SIX;
            report[place] = other;
            (says, report)
        })
    };
    (0..10).flat_map(wrong).collect()
}

/// Marks or answers that don't add up.
fn wrong_sums() -> Vec<(&'static str, Report)> {
    vec![
        ("a line without a mark", [1, 1, 0, 0, 0, 0, 0, 1, 0, 0]),
        ("a store without an answer", [1, 0, 0, 0, 0, 0, 0, 0, 0, 0]),
        ("a mark without a line", [0, 0, 0, 0, 0, 1, 0, 0, 0, 0]),
        ("an answer without a store", [0, 0, 0, 0, 0, 0, 0, 0, 0, 1]),
        ("the sums exchanged", [4, 6, 1, 1, 1, 1, 0, 3, 2, 1]),
        ("the greatest number everywhere", [MAX; 10]),
        ("2^32 marks too many", [2, 10, 1, 2, 3, 4, 1 << 32, 1, 0, 1]),
        (
            "2^32 answers too many",
            [2, 10, 1, 2, 3, 4, 0, 1, 0, (1 << 32) + 1],
        ),
    ]
}

/// Marks or answers that add up in 64 bits, in which they wrap.
fn wrapped_sums() -> Vec<(&'static str, Report)> {
    let (half, quarter) = (1 << 63, 1 << 62);
    vec![
        ("marks to no lines", [0, 0, MAX, 1, 0, 0, 0, 0, 0, 0]),
        ("far marks to no lines", [0, 0, 1, 0, 0, 0, MAX, 0, 0, 0]),
        ("answers to no stores", [0, 0, 0, 0, 0, 0, 0, MAX, 0, 1]),
        ("marks to 10", [2, 10, 1, 9, MAX, 1, 0, 1, 0, 1]),
        ("marks to 10, the last", [2, 10, 0, 0, 0, 11, MAX, 1, 0, 1]),
        ("two halves", [2, 10, half, 2, 3, half + 5, 0, 1, 0, 1]),
        (
            "four quarters",
            [2, 10, quarter, quarter, quarter, 10, quarter, 1, 0, 1],
        ),
        ("round twice", [2, 10, MAX, MAX, 12, 0, 0, 1, 0, 1]),
        ("round four times", [2, 10, MAX, MAX, MAX, MAX, 14, 1, 0, 1]),
        ("answers to 2", [2, 10, 1, 2, 3, 4, 0, MAX, 0, 3]),
        (
            "answers in halves",
            [2, 10, 1, 2, 3, 4, 0, half + 1, half + 1, 0],
        ),
        ("answers round twice", [2, 10, 1, 2, 3, 4, 0, MAX, MAX, 4]),
    ]
}

/// More lines or stores than there may be, each added up.
fn past_limits() -> Vec<(&'static str, Report)> {
    let (most, more) = (1_000_000, ALL_LINES + 1);
    let fewer = more - 4_194_304;
    vec![
        ("a line and no store", [0, 1, 1, 0, 0, 0, 0, 0, 0, 0]),
        (
            "one store of 4,194,305 lines",
            [1, 4_194_305, 4_194_300, 1, 1, 1, 2, 0, 1, 0],
        ),
        (
            "two stores of 8,388,609 lines",
            [2, 8_388_609, 0, 0, 0, 8_388_609, 0, 1, 0, 1],
        ),
        (
            "999,999 stores and a line too many",
            [999_999, fewer, fewer - 5, 0, 0, 5, 0, 999_999, 0, 0],
        ),
        (
            "1,000,000 stores and a line too many",
            [most, more, 0, 0, 0, 0, more, most, 0, 0],
        ),
        (
            "the greatest number of lines",
            [most, MAX, 1, MAX - 1, 0, 0, 0, 0, 0, most],
        ),
        (
            "1,000,001 stores",
            [1_000_001, 4, 4, 0, 0, 0, 0, 1_000_000, 1, 0],
        ),
        (
            "1,000,001 stores and lines for each",
            [1_000_001, 4_000_004, 4, 0, 0, 4_000_000, 0, 0, 0, 1_000_001],
        ),
        // 4,194,304 times these stores is 2^64.
        ("2^42 stores", [1 << 42, 0, 0, 0, 0, 0, 0, 1 << 42, 0, 0]),
        ("2^32 stores", [1 << 32, 4, 0, 4, 0, 0, 0, 0, 1 << 32, 0]),
        (
            "the greatest number of stores",
            [MAX, 0, 0, 0, 0, 0, 0, MAX, 0, 0],
        ),
        (
            "the greatest numbers of both",
            [MAX, MAX, MAX, 0, 0, 0, 0, 0, 0, MAX],
        ),
    ]
}

/// Two reports, each by its rebuilt lines and all its lines, and the order of
/// their shares: 0 equal, 1 the first is smaller, 2 greater.
pub type Shares = (&'static str, (u64, u64), (u64, u64), u32);

/// Shares that are easily told apart, or are equal.
pub fn plain_shares() -> Vec<Shares> {
    let all = ALL_LINES;
    vec![
        ("no lines", (0, 0), (0, 0), 0),
        ("no lines, none rebuilt", (0, 0), (0, 4), 0),
        ("no lines, one of all rebuilt", (0, 0), (1, all), 1),
        ("no lines, all rebuilt", (0, 0), (4, 4), 1),
        ("none rebuilt", (0, 4), (0, all), 0),
        ("a quarter", (1, 4), (2, 8), 0),
        ("a quarter of all", (all / 4, all), (1, 4), 0),
        (
            "half of two lines fewer",
            (all / 2 - 1, all - 2),
            (all / 2, all),
            0,
        ),
        ("everything", (all, all), (4, 4), 0),
        ("a quarter and a third", (1, 4), (2, 6), 1),
        ("fewer rebuilt, but of fewer", (3, 5), (4, 8), 2),
        ("more rebuilt of as many", (3, 8), (2, 8), 2),
        ("as many of more", (3, 9), (3, 8), 1),
        ("all but one", (all - 1, all), (all, all), 1),
    ]
}

/// Shares so near to each other that their cross products differ by very little,
/// or only above the low 32 or 64 bits.
pub fn near_shares() -> Vec<Shares> {
    let all = ALL_LINES;
    vec![
        // Six times 1,398,101 is 8,388,606, twice 4,194,304 two more.
        ("nearly a third", (1_398_101, 4_194_304), (2, 6), 1),
        ("just above a third", (1_398_102, 4_194_304), (2, 6), 2),
        // The products are n * n - 1 and n * n; as floating numbers the shares
        // are equal.
        ("next to one", (all - 2, all - 1), (all - 1, all), 1),
        ("one of one line more", (1, all), (1, all - 1), 1),
        ("just below a half", (all / 2 - 1, all - 1), (2, 4), 1),
        // Neighbours among Fibonacci's numbers: products that differ by 1.
        (
            "the 59th to the 61st",
            (956_722_026_041, 1_548_008_755_920),
            (1_548_008_755_920, 2_504_730_781_961),
            2,
        ),
        (
            "the 60th to the 62nd",
            (1_548_008_755_920, 2_504_730_781_961),
            (2_504_730_781_961, 4_052_739_537_881),
            1,
        ),
        // 2^81 and 2^80: the low 64 bits are 0 both times.
        (
            "a half and a quarter",
            (1 << 40, 1 << 41),
            (1 << 39, 1 << 41),
            2,
        ),
        // 2^81 and 2^41: the low bits are in the other order.
        ("a half and one", (1 << 40, 1 << 41), (1, 1 << 41), 2),
        // They differ by 2^64 exactly.
        (
            "2^64 apart",
            ((1 << 40) + (1 << 23), 1 << 41),
            (1 << 40, 1 << 41),
            2,
        ),
        ("2^32 apart", ((1 << 32) + 1, 1 << 33), (1, 1 << 33), 2),
        ("equal in 32 bits", (5, (1 << 32) + 8), (5, 8), 1),
    ]
}

/// A report with these rebuilt and all lines: in as few stores as hold them, all
/// other lines with mark 0 and all stores with answer 0.
pub fn of_share((rebuilt, lines): (u64, u64)) -> Report {
    let stores = lines.div_ceil(4_194_304);
    let clean = lines - rebuilt;
    [stores, lines, clean, 0, 0, rebuilt, 0, stores, 0, 0]
}

/// Reports whose share of rebuilt lines is a quarter, whatever else they have.
pub const QUARTERS: [Report; 5] = [
    [1, 4, 3, 0, 0, 1, 0, 1, 0, 0],
    [1, 4, 0, 3, 0, 1, 0, 0, 1, 0],
    [1, 4, 0, 0, 3, 1, 0, 0, 0, 1],
    [1, 4, 0, 0, 0, 1, 3, 1, 0, 0],
    [3, 16, 5, 4, 2, 4, 1, 1, 1, 1],
];

/// Reports without a rebuilt line, whatever else they have.
pub const NONE_REBUILT: [Report; 5] = [
    EMPTY,
    [1, 4, 4, 0, 0, 0, 0, 1, 0, 0],
    [1, 4, 0, 0, 4, 0, 0, 0, 0, 1],
    [1, 4, 0, 0, 0, 0, 4, 0, 1, 0],
    [2, 12, 0, 12, 0, 0, 0, 1, 0, 1],
];

/// A tour of seven repairs, three of them refused: each result with the report
/// after it.
pub fn tour() -> [(&'static [u8], u32, Report); 7] {
    [
        (&[0, 0, 0, 0], 0, [1, 4, 4, 0, 0, 0, 0, 1, 0, 0]),
        (&[0, 1, 2, 3, 4, 4], 11, [2, 10, 5, 1, 1, 1, 2, 1, 1, 0]),
        (&[0, 0, 0], 0, [2, 10, 5, 1, 1, 1, 2, 1, 1, 0]),
        (&[0, 0, 0, 5], 12, [2, 10, 5, 1, 1, 1, 2, 1, 1, 0]),
        (&[3, 3, 3, 3], 12, [3, 14, 5, 1, 1, 5, 2, 1, 1, 1]),
        (&[0, 0, 0, 0], 9, [3, 14, 5, 1, 1, 5, 2, 1, 1, 1]),
        (&[0, 1, 1, 2, 2, 2], 0, [4, 20, 6, 3, 4, 5, 2, 2, 1, 1]),
    ]
}
