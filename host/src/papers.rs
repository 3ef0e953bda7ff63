//! The papers' own examples, as data, and our own for 02's rule of host labels
//! (`host_labels`). Nothing here is computed by the schemes. BRACE's are in
//! `brace`.

pub mod brace;

use crate::nametable::{ENTRY_LENGTH, HEADER_KIND};
use crate::scheme::Scheme;

/// What a paper says of encoding a text under a scheme.
pub enum Says {
    Label(String),
    /// Only the label's length.
    Length(usize),
    /// An error with this code, at position 0.
    Error(u64),
}

/// A text, and what a paper says of encoding it under a scheme.
pub struct Known {
    pub scheme: Scheme,
    pub text: Vec<u32>,
    pub says: Says,
}

fn label(scheme: Scheme, text: &[u32], label: &str) -> Known {
    Known { scheme, text: text.to_vec(), says: Says::Label(label.to_string()) }
}

fn length(scheme: Scheme, text: &[u32], length: usize) -> Known {
    Known { scheme, text: text.to_vec(), says: Says::Length(length) }
}

fn error(scheme: Scheme, text: &[u32], code: u64) -> Known {
    Known { scheme, text: text.to_vec(), says: Says::Error(code) }
}

/// All that the papers say of encoding a text, and our own for host labels.
pub fn known() -> Vec<Known> {
    let rows = [known_rows(), edges(), host_labels(), known_003(), known_004()];
    rows.into_iter().flatten().collect()
}

/// The cells of the scope paper's table "Known spellings", row by row.
pub fn known_rows() -> Vec<Known> {
    use Scheme::{AltDude, Lace};
    vec![
        label(AltDude, &[0x60], "a"),
        label(AltDude, &[0x61], "b"),
        error(Lace, &[0x61], 6),
        label(AltDude, &[0xFC], "3n"),
        label(Lace, &[0xFC], "lq--74apy"),
        label(Lace, &[0xFC, 0xFC], "lq--aiapz7a"),
        label(AltDude, &[0x61, 0x2D, 0x61], "b-a"),
        error(Lace, &[0x61, 0x2D, 0x61], 6),
        label(AltDude, &[0x10FFFF], "ts993r"),
        label(AltDude, &[0x1F9F6], "t933g"),
        label(Lace, &[0x1F9F6], "lq--77md5xpw"),
        label(Lace, &[0x12F, 0x111, 0x149, 0xE5], "lq--amas6ekjaeaok"),
        label(AltDude, &KANA, "vsvpvd7hypuivf4q"),
    ]
}

/// The text of the table's last row.
pub const KANA: [u32; 7] = [0x305D, 0x306E, 0x30B9, 0x30D4, 0x30FC, 0x30C9, 0x3067];

/// The scope paper's paragraph "Edges".
pub fn edges() -> Vec<Known> {
    use Scheme::{AltDude, Lace};
    vec![
        label(AltDude, &[0x61; 63], &format!("b{}", "a".repeat(62))),
        error(AltDude, &[0x61; 64], 3),
        label(AltDude, &in_turn(10), &format!("ts993r{}", "ts993q".repeat(9))),
        error(AltDude, &in_turn(11), 3),
        length(Lace, &[0x431; 34], 62),
        error(Lace, &[0x431; 35], 3),
        length(Lace, &ever_changing(17), 60),
        error(Lace, &ever_changing(18), 3),
    ]
}

/// LACE keeps back host labels only (02): texts on both sides of that rule.
pub fn host_labels() -> Vec<Known> {
    use Scheme::{AltDude, Lace};
    let points = |text: &str| -> Vec<u32> { text.chars().map(u32::from).collect() };
    let hyphen_and_a = |times: usize| points(&format!("-{}", "a".repeat(times)));
    vec![
        label(Lace, &points("-ab"), "lq--amac2ylc"),
        label(Lace, &points("ab-"), "lq--amagcyrn"),
        label(Lace, &points("-"), "lq--74ac2"),
        label(Lace, &points("--"), "lq--aiac2li"),
        label(Lace, &points("-AB"), "lq--amac2qkc"),
        length(Lace, &hyphen_and_a(33), 62),
        error(Lace, &hyphen_and_a(34), 3),
        error(Lace, &points("a-b"), 6),
        error(Lace, &points("Z9-0z"), 6),
        error(Lace, &[0x61; 63], 6),
        error(Lace, &[0x61; 64], 3),
        error(Lace, &[0x61; 300], 3),
        error(AltDude, &points("-ab"), 5),
    ]
}

/// An example string of source document 003.
pub struct Example {
    /// The draft's letter for it.
    pub letter: char,
    /// The text as the draft shows it, capitals included.
    pub shown: &'static str,
    /// The label as the draft prints it, its two lines joined where it has two.
    pub label: &'static str,
    /// The error that the scope paper's limits give it, if any.
    pub code: Option<u64>,
}

impl Example {
    /// The folded text. The draft's labels were made with its case-preserving
    /// model: the text is folded first, and a capital in the label marks a
    /// letter that was a capital in the text.
    pub fn text(&self) -> Vec<u32> {
        self.shown.to_lowercase().chars().map(u32::from).collect()
    }
}

/// An example that is written.
const fn example(letter: char, shown: &'static str, label: &'static str) -> Example {
    Example { letter, shown, label, code: None }
}

/// An example whose label is over 63 bytes.
const fn long(letter: char, shown: &'static str, label: &'static str) -> Example {
    Example { letter, shown, label, code: Some(3) }
}

/// An example with a hyphen at its edges.
const fn at_edges(letter: char, shown: &'static str, label: &'static str) -> Example {
    Example { letter, shown, label, code: Some(5) }
}

/// Every example string of source document 003, A to S.
///
/// A, B, D to H and J list code points; they are copied one by one. C, I and K
/// to R mix letters with names such as `<ccaron>`; each name is replaced by the
/// code points that the draft gives under the text. S stands as it is.
/// The labels of G and K are over 63 bytes (3); S begins and ends with a hyphen (5).
pub const EXAMPLES_003: [Example; 19] = [
    example(
        'A',
        "\u{644}\u{64A}\u{647}\u{645}\u{627}\u{628}\u{62A}\u{643}\u{644}\
         \u{645}\u{648}\u{634}\u{639}\u{631}\u{628}\u{64A}\u{61F}",
        "yueqpcycrcyjhbpznpitjycxf",
    ),
    example(
        'B',
        "\u{4ED6}\u{4EEC}\u{4E3A}\u{4EC0}\u{4E48}\u{4E0D}\u{8BF4}\u{4E2D}\u{6587}",
        "w85gvk7g9k2iwf6x9j6x7ju54k",
    ),
    example(
        'C',
        "Pro\u{10D}prost\u{11B}nemluv\u{ED}\u{10D}esky",
        "tActptyctzpctptnhtyrtzfmibtjd3mt8atyitgtitc",
    ),
    example(
        'D',
        "\u{5DC}\u{5DE}\u{5D4}\u{5D4}\u{5DD}\u{5E4}\u{5E9}\u{5D5}\u{5D8}\
         \u{5DC}\u{5D0}\u{5DE}\u{5D3}\u{5D1}\u{5E8}\u{5D9}\u{5DD}\u{5E2}\
         \u{5D1}\u{5E8}\u{5D9}\u{5EA}",
        "x5nckajvjpvnpenqpcvjvbevrvdvjvbvd",
    ),
    example(
        'E',
        "\u{92F}\u{939}\u{932}\u{94B}\u{917}\u{939}\u{93F}\u{928}\u{94D}\
         \u{926}\u{940}\u{915}\u{94D}\u{92F}\u{94B}\u{902}\u{928}\u{939}\
         \u{940}\u{902}\u{92C}\u{94B}\u{932}\u{938}\u{915}\u{924}\u{947}\
         \u{939}\u{948}\u{902}",
        "3wrtgmzjxnuqgthyfymygxfxiycyewjuktbzjwcuqyhzjkupvbydzqzbwk",
    ),
    example(
        'F',
        "\u{306A}\u{305C}\u{307F}\u{3093}\u{306A}\u{65E5}\u{672C}\u{8A9E}\u{3092}\
         \u{8A71}\u{3057}\u{3066}\u{304F}\u{308C}\u{306A}\u{3044}\u{306E}\u{304B}",
        "vsskvgud8n9jxx2ru6j875c54sn548d54ugvbuj6d8guqukuf",
    ),
    long(
        'G',
        "\u{C138}\u{ACC4}\u{C758}\u{BAA8}\u{B4E0}\u{C0AC}\u{B78C}\u{B4E4}\u{C774}\
         \u{D55C}\u{AD6D}\u{C5B4}\u{B97C}\u{C774}\u{D574}\u{D55C}\u{B2E4}\u{BA74}\
         \u{C5BC}\u{B9C8}\u{B098}\u{C88B}\u{C744}\u{AE4C}",
        "6txiy79ny53nz79a8wizwwnzzuavyizv3atuuiz2vby27jz66iz8si\
         tusauiyz5i23az96iz6ze3xaz2td96ry3si",
    ),
    example(
        'H',
        "\u{41F}\u{43E}\u{447}\u{435}\u{43C}\u{443}\u{436}\u{435}\u{43E}\
         \u{43D}\u{438}\u{43D}\u{435}\u{433}\u{43E}\u{432}\u{43E}\u{440}\
         \u{44F}\u{442}\u{43F}\u{43E}\u{440}\u{443}\u{441}\u{441}\u{43A}\u{438}",
        "wxRbzjzcjzrzfdmdffigpnnzqrpzpbzqdcazmc",
    ),
    example(
        'I',
        "Porqu\u{E9}nopuedensimplementehablarenEspa\u{F1}ol",
        "tAtrtpde3n2hbtrftabbmtptketptnjiimtktbpjdqptdthmMtgdtb3a3qd",
    ),
    example(
        'J',
        "\u{4ED6}\u{5011}\u{7232}\u{4EC0}\u{9EBD}\u{4E0D}\u{8AAA}\u{4E2D}\u{6587}",
        "w85gt86huuudv69c7szp7s5a6w4h6w2hu54k",
    ),
    long(
        'K',
        "Ta\u{323}isaoho\u{323}kh\u{F4}ngth\u{EA}\u{309}chi\u{309}no\u{301}iti\u{EA}\u{301}\
         ngVi\u{EA}\u{323}t",
        "tEtfvwcvwktktcqhhvwnvwid3n3kjtdtn2cv8dvykmbvyavyhbvyqv\
         yitptp2dv8mvyrjtBtr2dv6jvxh",
    ),
    example(
        'L',
        "3\u{5E74}B\u{7D44}\u{91D1}\u{516B}\u{5148}\u{751F}",
        "xdx8whx8tGz7ug863f6s5kuduwxh",
    ),
    example(
        'M',
        "\u{5B89}\u{5BA4}\u{5948}\u{7F8E}\u{6075}-with-SUPER-MONKEYS",
        "x58jupu8nuy6gt99m-yssctqtptn-tMGFtFtH-tRCBFQtNK",
    ),
    example(
        'N',
        "Hello-Another-Way-\u{305D}\u{308C}\u{305E}\u{308C}\u{306E}\u{5834}\u{6240}",
        "Ipjad-Qrbtmtnpth-Ftgti-vsue7b7c7c8cy2xkv4ze",
    ),
    example(
        'O',
        "\u{3072}\u{3068}\u{3064}\u{5C4B}\u{6839}\u{306E}\u{4E0B}2",
        "vstctkny6urvwzcx2xhz8yfw8vj",
    ),
    example(
        'P',
        "Maji\u{3067}Koi\u{3059}\u{308B}5\u{79D2}\u{524D}",
        "PnmdvssqvssNegvsva7cvs5qz38hu53r",
    ),
    example(
        'Q',
        "\u{30D1}\u{30D5}\u{30A3}\u{30FC}de\u{30EB}\u{30F3}\u{30D0}",
        "vs5bezgxrvs3ibvs2qtiud",
    ),
    example('R', "\u{305D}\u{306E}\u{30B9}\u{30D4}\u{30FC}\u{30C9}\u{3067}", "vsvpvd7hypuivf4q"),
    at_edges('S', "-> $1.00 <-", "-xqtqetftrtqatatn-"),
];

/// The examples of source document 003 on the folded text.
fn known_003() -> Vec<Known> {
    let known = |example: &Example| match example.code {
        None => label(Scheme::AltDude, &example.text(), &example.label.to_ascii_lowercase()),
        Some(code) => error(Scheme::AltDude, &example.text(), code),
    };
    EXAMPLES_003.iter().map(known).collect()
}

/// A compression example of source document 004, section 2.4.3. The draft gives
/// the octets only. The label is these octets put through another Base32
/// encoder; the second is also in the scope paper.
pub struct Octets {
    pub text: &'static [u32],
    pub octets: &'static [u8],
    pub label: &'static str,
}

/// The three compression examples of source document 004, in its order.
pub fn octets_004() -> [Octets; 3] {
    [
        Octets {
            text: &[0x30E6, 0x30CB, 0x30B3, 0x30FC, 0x30C9],
            octets: &[0x05, 0x30, 0xE6, 0xCB, 0xB3, 0xFC, 0xC9],
            label: "lq--auyons5t7teq",
        },
        Octets {
            text: &[0x012F, 0x0111, 0x0149, 0x00E5],
            octets: &[0x03, 0x01, 0x2F, 0x11, 0x49, 0x01, 0x00, 0xE5],
            label: "lq--amas6ekjaeaok",
        },
        Octets {
            text: &[0x012F, 0x00E0, 0x014B],
            octets: &[0xFF, 0x01, 0x2F, 0x00, 0xE0, 0x01, 0x4B],
            label: "lq--74as6ahaaffq",
        },
    ]
}

/// The compression examples of source document 004 with their labels.
fn known_004() -> Vec<Known> {
    let known = |example: &Octets| label(Scheme::Lace, example.text, example.label);
    octets_004().iter().map(known).collect()
}

/// The Base32 example of source document 004, section 2.5.3.
pub const BASE32_004: ([u8; 4], &str) = ([0x3A, 0x27, 0x0F, 0x93], "hitq7ey");

/// A label that looks right and is not, and the code of its error.
pub struct Slip {
    pub scheme: Scheme,
    pub label: &'static str,
    pub code: u64,
}

/// The scope paper's section "Slips that look right".
pub const SLIPS: [Slip; 6] = [
    Slip { scheme: Scheme::AltDude, label: "sb", code: 9 },
    Slip { scheme: Scheme::AltDude, label: "wp", code: 9 },
    Slip { scheme: Scheme::AltDude, label: "x", code: 9 },
    Slip { scheme: Scheme::Lace, label: "lq--aeapy", code: 9 },
    Slip { scheme: Scheme::Lace, label: "lq--74apz", code: 9 },
    Slip { scheme: Scheme::Lace, label: "lq--aiagcyq", code: 6 },
];

/// The bytes of a header of a kind, and of these entries after it.
fn with_header(kind: u8, entries: &[Vec<u8>]) -> Vec<u8> {
    let mut table = vec![kind];
    table.extend((entries.len() as u16).to_be_bytes());
    table.extend(entries.concat());
    table
}

/// The bytes of a table with these entries: kind, reader number, label of at
/// most 63 bytes.
pub fn table_of(entries: &[(u8, u16, Vec<u8>)]) -> Vec<u8> {
    let entry = |(kind, reader, label): &(u8, u16, Vec<u8>)| {
        let mut entry = vec![*kind];
        entry.extend(reader.to_be_bytes());
        entry.push(label.len() as u8);
        entry.extend(label);
        entry.resize(ENTRY_LENGTH, 0);
        entry
    };
    with_header(HEADER_KIND, &entries.iter().map(entry).collect::<Vec<_>>())
}

/// The bytes of an entry of a short table, in a kind that holds its label: scheme
/// number, reader number, label.
pub fn short_entry_in(kind: u8, (scheme, reader, label): &(u8, u16, Vec<u8>)) -> Vec<u8> {
    let mut entry = vec![kind];
    entry.extend(reader.to_be_bytes());
    entry.extend([*scheme, label.len() as u8]);
    entry.extend(label);
    let body = match kind {
        0x51 => 20,
        0x52 => 36,
        _ => 67,
    };
    entry.resize(1 + body, 0);
    entry
}

/// The bytes of an entry of a short table, in the smallest kind that holds its label.
pub fn short_entry(entry: &(u8, u16, Vec<u8>)) -> Vec<u8> {
    let kind = match entry.2.len() {
        0..=16 => 0x51,
        17..=32 => 0x52,
        _ => 0x53,
    };
    short_entry_in(kind, entry)
}

/// The bytes of a short table with these records for entries.
pub fn short_table_with(entries: &[Vec<u8>]) -> Vec<u8> {
    with_header(0x49, entries)
}

/// The bytes of a short table with these entries: scheme number, reader number,
/// label of at most 63 bytes.
pub fn short_table_of(entries: &[(u8, u16, Vec<u8>)]) -> Vec<u8> {
    short_table_with(&entries.iter().map(short_entry).collect::<Vec<_>>())
}

/// The scope paper's example: entries 7 (AltDUDE `3n`) and 300 (LACE `lq--74apy`).
pub fn sample_table() -> Vec<u8> {
    table_of(&[(0x41, 7, b"3n".to_vec()), (0x4C, 300, b"lq--74apy".to_vec())])
}

/// The same entries in a short table.
pub fn sample_short_table() -> Vec<u8> {
    short_table_of(&[(1, 7, b"3n".to_vec()), (2, 300, b"lq--74apy".to_vec())])
}

/// U+10FFFF and U+0061 in turn, so many points.
pub fn in_turn(points: usize) -> Vec<u32> {
    (0..points).map(|index| if index % 2 == 0 { 0x10FFFF } else { 0x61 }).collect()
}

/// So many units of ever-changing high octet, none of them LDH.
pub fn ever_changing(units: usize) -> Vec<u32> {
    (0..units).map(|index| 0x0131 + 0x100 * index as u32).collect()
}
