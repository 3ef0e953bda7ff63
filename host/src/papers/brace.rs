//! BRACE's examples as data: those of source documents 000, 002 and 001, and our
//! own. Nothing here is computed by the scheme.

use super::{Example, Says, EXAMPLES_003, KANA};

/// A text in units, and what is said of encoding it.
pub struct KnownUnits {
    pub units: Vec<u16>,
    pub says: Says,
}

/// The units of a text that is shown.
pub fn units_of(shown: &str) -> Vec<u16> {
    shown.encode_utf16().collect()
}

fn label(shown: &str, label: &str) -> KnownUnits {
    KnownUnits { units: units_of(shown), says: Says::Label(label.to_string()) }
}

fn length(shown: &str, length: usize) -> KnownUnits {
    KnownUnits { units: units_of(shown), says: Says::Length(length) }
}

fn error(shown: &str, code: u64) -> KnownUnits {
    KnownUnits { units: units_of(shown), says: Says::Error(code) }
}

/// All that is said of encoding a text, without the examples of 001.
pub fn known() -> Vec<KnownUnits> {
    [examples_002(), styles(), copies(), limits()].into_iter().flatten().collect()
}

/// The five examples of source document 002, which are those of 000 too.
pub fn examples_002() -> Vec<KnownUnits> {
    let kana = KANA.map(|point| char::from_u32(point).expect("kana are characters"));
    vec![
        label(
            "\u{5B89}\u{5BA4}\u{5948}\u{7F8E}\u{6075}-with-super-monkeys",
            "UVJ7FUAQCAHY982XA---with--super--monkeys-8Q9",
        ),
        label(
            "hello-another-way-\u{305D}\u{308C}\u{305E}\u{308C}\u{306E}\u{5834}\u{6240}",
            "JI7-hello--another--way---V3JHAEFVD2UFJ62-8Q9",
        ),
        label(&String::from_iter(kana), "BIDPRDMP9WT7MI-8Q9"),
        label("\u{30D1}\u{30D5}\u{30A3}\u{30FC}de\u{30EB}\u{30F3}\u{30D0}", "3IU8PAZT-de-PYGI-8Q9"),
        label("-> $1.00 <-", "229--T2B4-1-W-00-I9I---8Q9"),
    ]
}

/// Texts around the choice of style and of half-row.
fn styles() -> Vec<KnownUnits> {
    vec![
        label("\u{FC}", "22ZI-8Q9"),
        label("\u{3042}\u{30A2}\u{4E00}", "TIAASC6MI2-8Q9"),
        label("\u{3042}\u{3044}\u{4E00}", "JI66J8MI2-8Q9"),
        label("\u{3042}\u{30A2}\u{30A2}\u{4E00}", "JI676CAQMI2-8Q9"),
        label("\u{E9}\u{F1}\u{431}\u{3042}", "I2QKWG33JTIAA-8Q9"),
        label("\u{30A2}\u{30A4}\u{42F}\u{4B0}", "I6ESC7M3B3HM2-8Q9"),
        label("\u{1F9F6}", "YS9VGZE-8Q9"),
    ]
}

/// Texts around plain labels, hyphens and copied letters.
fn copies() -> Vec<KnownUnits> {
    vec![
        label("a\u{FC}", "22Z-a-I-8Q9"),
        label("\u{FC}-a-\u{FC}", "22ZM---a---W-8Q9"),
        label("8Q9", "8Q9"),
        label("aZ-09", "aZ-09"),
        label("a-8Q9a", "a-8Q9a"),
        label("a-8q9", "S-a--8q9-8Q9"),
        label("a-8Q9", "S-a--8Q9-8Q9"),
        label("-8Q9", "S---8Q9-8Q9"),
        label("-ab", "S---ab-8Q9"),
        label("ab-", "S-ab---8Q9"),
        label("-", "S---8Q9"),
        label(&"a".repeat(63), &"a".repeat(63)),
    ]
}

/// Texts on both sides of 63 bytes and of 63 units.
fn limits() -> Vec<KnownUnits> {
    let with_copies = |times: usize| format!("\u{FC}{}", "a".repeat(times));
    vec![
        length(&with_copies(54), 63),
        error(&with_copies(55), 3),
        length(&"\u{FC}".repeat(40), 63),
        error(&"\u{FC}".repeat(41), 3),
        error(&"a".repeat(64), 3),
        error(&"a".repeat(300), 3),
    ]
}

/// A label in a case that encoding does not give, and the text that it is read as.
pub const READ: [(&str, &str); 6] = [
    ("22zI-Ab-8q9", "\u{FC}Ab"),
    ("22ZI---8Q9", "\u{FC}-"),
    ("22ZI2-8Q9", "\u{FC}\u{80}"),
    ("22zi-8q9", "\u{FC}"),
    ("s---aB-8Q9", "-aB"),
    ("8q9", "8q9"),
];

/// Labels with the signature that are refused, with 9 each.
pub const REFUSED: [&str; 18] = [
    "A2ZI-8Q9",
    "I2RS-8Q9",
    "22693-8Q9",
    "22ZI--8Q9",
    "S-abc-8Q9",
    "22E6-8Q9",
    "S-8Q9",
    "222-8Q9",
    "22ZJ-8Q9",
    "22-8Q9",
    "8S9S-8Q9",
    "a.b-8Q9",
    "-ab-8Q9",
    "-8Q9",
    "22ZL-8Q9",
    "22ZI-a--8Q9",
    "22ZI22-8Q9",
    "2-a-2ZI-8Q9",
];

/// An example of source document 001, which shows BRACE beside its own scheme.
pub struct Example001 {
    /// The draft's letter for it.
    pub letter: char,
    /// The letter of the same text in source document 003.
    pub letter_in_003: char,
    /// The label as the draft prints it: base-32 small, without the signature.
    pub printed: &'static str,
    /// Whether our copy of the draft breaks off within it; it is over 63 bytes then.
    pub cut: bool,
}

impl Example001 {
    /// The units that are encoded. The draft makes all but LDH small. In A it
    /// prints the copied B small, so that a small b is encoded.
    pub fn units(&self) -> Vec<u16> {
        let same = |example: &&Example| example.letter == self.letter_in_003;
        let shown = EXAMPLES_003.iter().find(same).expect("003 has these letters").shown;
        let ascii_kept = |one: char| match one.is_ascii() && self.letter != 'A' {
            true => one.to_string(),
            false => one.to_lowercase().to_string(),
        };
        units_of(&shown.chars().map(ascii_kept).collect::<String>())
    }
}

const fn example(letter: char, letter_in_003: char, printed: &'static str) -> Example001 {
    Example001 { letter, letter_in_003, printed, cut: false }
}

const fn cut(letter: char, letter_in_003: char, printed: &'static str) -> Example001 {
    Example001 { letter, letter_in_003, printed, cut: true }
}

/// Every example of source document 001. Their texts are those of 003 under other
/// letters; that of Q, whose line our copy lost, is made from its line of UTF-8
/// and the names under it.
pub const EXAMPLES_001: [Example001; 18] = [
    example('A', 'L', "u-3-ygj-b-ynb6gjc7pp4k5p5w"),
    example('B', 'M', "uvj7fuaqcahy982xa---with--SUPER--MONKEYS"),
    example('C', 'N', "ji7-Hello--Another--Way---v3jhaefvd2ufj62"),
    example('D', 'O', "ji96u56uwbhf2wqxnw4s-2"),
    example('E', 'P', "ji8-Maji-g-Koi-qe7x-5-wx7p6ma"),
    example('F', 'Q', "3iu8pazt-de-pygi"),
    example('G', 'R', "bidprdmp9wt7mi"),
    example('H', 'A', "28akcjwcmp3ciwb4t3ngd4nbaz"),
    example('I', 'B', "kgcqqsgp26i5h4zn7req5i"),
    example('J', 'C', "i32-Pro-u-prost-8y-nemluv-29f3n-esky"),
    example('K', 'D', "27vkyp7bgwmbpfjgc4ynx5nd8xsp5nd9c"),
    example('L', 'E', "2b7xtenqdr7zc6uma2pmcz7ibage237kdemicnk9gei32"),
    cut('M', 'G', "y394qebjusrcndbs82pkvstf96sxufcr7ffr4vbgdwsxufcx8pdktgb"),
    example('N', 'H', "269xyjvcyafqfdwyr3xfd8z8byi6z39xyi692s7ug2"),
    example('O', 'I', "22x-Porqu-9-nopuedensimplementehablarenEspa-j-ol"),
    example('P', 'J', "kgcqui49gatc2wyrn8y7cndgte9"),
    cut('Q', 'K', "i54-Ta-8-isaoho-ay-kh-29n-ngth-s2xa6i-chi-k-no-2g-iti-2"),
    example('R', 'S', "229--t2b4-1-w-00-i9i--"),
];
