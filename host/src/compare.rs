//! The same calls of two implementations, with every element of the memory
//! around compared.

use crate::functions::{
    store, DecodeMarked, EncodeMarked, Function, Implementation, Numbers, Receive, TableDiff,
    TableWrite,
};
use crate::generate::calls::{self, Call, Row};
use crate::generate::chunks::Chunks;
use crate::generate::lists::List;
use crate::generate::marks::MarkedText;
use crate::generate::Source;
use std::collections::BTreeMap;
use std::fmt;
use std::hint::black_box;

/// How many elements are watched on each side of a row.
const GUARD: usize = 16;

/// What a row is made of.
trait Element: Copy + PartialEq + fmt::UpperHex {
    /// The element that holds the lowest bits of a number.
    fn of(number: u64) -> Self;
}

impl Element for u8 {
    fn of(number: u64) -> u8 {
        number as u8
    }
}

impl Element for u16 {
    fn of(number: u64) -> u16 {
        number as u16
    }
}

impl Element for u32 {
    fn of(number: u64) -> u32 {
        number as u32
    }
}

impl Element for u64 {
    fn of(number: u64) -> u64 {
        number
    }
}

impl Element for usize {
    fn of(number: u64) -> usize {
        number as usize
    }
}

/// A row with a guard on each side.
#[derive(Clone, PartialEq)]
struct Guarded<T> {
    elements: Vec<T>,
}

impl<T: Element> Guarded<T> {
    /// A row of so many elements; row and guards are filled by the generator.
    fn filled(source: &mut Source, length: usize) -> Guarded<T> {
        let elements = (0..GUARD + length + GUARD).map(|_| T::of(source.number())).collect();
        Guarded { elements }
    }

    /// A row that holds these elements; the guards are filled by the generator.
    fn holding(source: &mut Source, row: &[T]) -> Guarded<T> {
        let mut elements = Guarded::filled(source, 0).elements;
        elements.splice(GUARD..GUARD, row.iter().copied());
        Guarded { elements }
    }

    fn row(&self) -> &[T] {
        &self.elements[GUARD..self.elements.len() - GUARD]
    }

    fn row_mut(&mut self) -> &mut [T] {
        let end = self.elements.len() - GUARD;
        &mut self.elements[GUARD..end]
    }

    /// The first so many elements of the row; all of them if there are fewer.
    fn front(&self, count: usize) -> &[T] {
        &self.row()[..count.min(self.row().len())]
    }
}

impl<T: Element> fmt::Display for Guarded<T> {
    fn fmt(&self, out: &mut fmt::Formatter) -> fmt::Result {
        let digits = 2 * size_of::<T>();
        self.elements.iter().try_for_each(|element| write!(out, " {element:0digits$X}"))
    }
}

/// What a function fills: a buffer, or two.
trait Filled: Clone + PartialEq + fmt::Display {
    /// The length of the buffer, or of each of the two.
    type Capacity: Copy;

    /// Buffers before a call: they and their guards are filled by the generator.
    fn before(source: &mut Source, capacity: Self::Capacity) -> Self;

    /// Takes the first so many elements of each buffer from another memory.
    fn take(&mut self, count: usize, from: &Self);
}

impl<T: Element> Filled for Guarded<T> {
    type Capacity = usize;

    fn before(source: &mut Source, capacity: usize) -> Guarded<T> {
        Guarded::filled(source, capacity)
    }

    fn take(&mut self, count: usize, from: &Guarded<T>) {
        let front = from.front(count);
        self.row_mut()[..front.len()].copy_from_slice(front);
    }
}

/// A function that is compared: what is given to it, the memory of that and of what it
/// fills, and how it is called.
trait Compared: Copy {
    /// What the generator makes.
    type Given;
    /// The same, each row with its guards.
    type Rows: Clone + PartialEq + fmt::Display;
    /// What is filled.
    type Filled: Filled;

    fn rows(source: &mut Source, given: &Self::Given) -> Self::Rows;

    fn call(self, rows: &Self::Rows, filled: &mut Self::Filled, answer: &mut [u64]);

    /// The code under which a call is counted that stored these numbers and left this in
    /// the buffer: 0 if it was done.
    fn code(numbers: Numbers, _filled: &Self::Filled) -> u64 {
        numbers[0]
    }
}

/// One row that is given, and the number or the numbers beside it.
#[derive(Clone, PartialEq)]
struct GuardedRow<G, N> {
    row: Guarded<G>,
    number: N,
}

impl<G: Element, N: Copy> GuardedRow<G, N> {
    fn holding(source: &mut Source, given: &Row<G, N>) -> GuardedRow<G, N> {
        GuardedRow { row: Guarded::holding(source, &given.elements), number: given.number }
    }
}

impl<G: Element, N: fmt::Debug> fmt::Display for GuardedRow<G, N> {
    fn fmt(&self, out: &mut fmt::Formatter) -> fmt::Result {
        write!(out, "\n    number {:?}\n    given {}", self.number, self.row)
    }
}

impl<G, B, N> Compared for Function<G, B, N>
where
    G: Element,
    B: Element,
    N: Copy + PartialEq + fmt::Debug,
{
    type Given = Row<G, N>;
    type Rows = GuardedRow<G, N>;
    type Filled = Guarded<B>;

    fn rows(source: &mut Source, given: &Row<G, N>) -> GuardedRow<G, N> {
        GuardedRow::holding(source, given)
    }

    fn call(self, rows: &GuardedRow<G, N>, buffer: &mut Guarded<B>, answer: &mut [u64]) {
        self(rows.row.row(), rows.number, buffer.row_mut(), answer);
    }
}

/// A text and its marks, given or filled.
#[derive(Clone, PartialEq)]
struct GuardedMarkedText {
    text: Guarded<u32>,
    marks: Guarded<u8>,
}

impl fmt::Display for GuardedMarkedText {
    fn fmt(&self, out: &mut fmt::Formatter) -> fmt::Result {
        write!(out, "\n    text  {}\n    marks {}", self.text, self.marks)
    }
}

impl Filled for GuardedMarkedText {
    type Capacity = [usize; 2];

    fn before(source: &mut Source, [text, marks]: [usize; 2]) -> GuardedMarkedText {
        GuardedMarkedText {
            text: Guarded::filled(source, text),
            marks: Guarded::filled(source, marks),
        }
    }

    fn take(&mut self, count: usize, from: &GuardedMarkedText) {
        self.text.take(count, &from.text);
        self.marks.take(count, &from.marks);
    }
}

impl Compared for EncodeMarked {
    type Given = MarkedText;
    type Rows = GuardedMarkedText;
    type Filled = Guarded<u8>;

    fn rows(source: &mut Source, given: &MarkedText) -> GuardedMarkedText {
        GuardedMarkedText {
            text: Guarded::holding(source, &given.text),
            marks: Guarded::holding(source, &given.marks),
        }
    }

    fn call(self, rows: &GuardedMarkedText, buffer: &mut Guarded<u8>, answer: &mut [u64]) {
        self((rows.text.row(), rows.marks.row()), buffer.row_mut(), answer);
    }
}

impl Compared for DecodeMarked {
    type Given = Row<u8>;
    type Rows = GuardedRow<u8, usize>;
    type Filled = GuardedMarkedText;

    fn rows(source: &mut Source, given: &Row<u8>) -> GuardedRow<u8, usize> {
        GuardedRow::holding(source, given)
    }

    fn call(self, rows: &Self::Rows, filled: &mut GuardedMarkedText, answer: &mut [u64]) {
        self(rows.row.row(), (filled.text.row_mut(), filled.marks.row_mut()), answer);
    }
}

/// The four rows of a list.
#[derive(Clone, PartialEq)]
struct GuardedList {
    readers: Guarded<u16>,
    schemes: Guarded<u32>,
    lengths: Guarded<usize>,
    points: Guarded<u32>,
}

impl fmt::Display for GuardedList {
    fn fmt(&self, out: &mut fmt::Formatter) -> fmt::Result {
        write!(out, "\n    readers{}\n    schemes{}", self.readers, self.schemes)?;
        write!(out, "\n    lengths{}\n    points {}", self.lengths, self.points)
    }
}

impl Compared for TableWrite {
    type Given = List;
    type Rows = GuardedList;
    type Filled = Guarded<u8>;

    fn rows(source: &mut Source, given: &List) -> GuardedList {
        GuardedList {
            readers: Guarded::holding(source, &given.readers),
            schemes: Guarded::holding(source, &given.schemes),
            lengths: Guarded::holding(source, &given.lengths),
            points: Guarded::holding(source, &given.points),
        }
    }

    fn call(self, rows: &GuardedList, buffer: &mut Guarded<u8>, answer: &mut [u64]) {
        let GuardedList { readers, schemes, lengths, points } = rows;
        let buffer = buffer.row_mut();
        self(readers.row(), schemes.row(), lengths.row(), points.row(), buffer, answer);
    }
}

/// The two tables of a sheet.
#[derive(Clone, PartialEq)]
struct GuardedTables {
    left: Guarded<u8>,
    right: Guarded<u8>,
}

impl fmt::Display for GuardedTables {
    fn fmt(&self, out: &mut fmt::Formatter) -> fmt::Result {
        write!(out, "\n    left  {}\n    right {}", self.left, self.right)
    }
}

impl Compared for TableDiff {
    type Given = [Vec<u8>; 2];
    type Rows = GuardedTables;
    type Filled = Guarded<u8>;

    fn rows(source: &mut Source, [left, right]: &[Vec<u8>; 2]) -> GuardedTables {
        GuardedTables {
            left: Guarded::holding(source, left),
            right: Guarded::holding(source, right),
        }
    }

    fn call(self, rows: &GuardedTables, buffer: &mut Guarded<u8>, answer: &mut [u64]) {
        self([rows.left.row(), rows.right.row()], buffer.row_mut(), answer);
    }

    /// A sheet that refuses a table is counted under the code that it tells, and 100
    /// more if it is the left table's, 200 more if it is the right one's.
    fn code(numbers: Numbers, buffer: &Guarded<u8>) -> u64 {
        let sheet = String::from_utf8_lossy(buffer.front(numbers[2] as usize));
        let told = |code: &str| code.parse::<u64>().unwrap_or(0);
        match sheet.splitn(4, ' ').collect::<Vec<_>>()[..] {
            ["left", "refused", code, _] => 100 + told(code),
            ["right", "refused", code, _] => 200 + told(code),
            _ => numbers[0],
        }
    }
}

/// The lengths of chunks, and the bytes that are received.
#[derive(Clone, PartialEq)]
struct GuardedChunks {
    lengths: Guarded<usize>,
    bytes: Guarded<u8>,
}

impl fmt::Display for GuardedChunks {
    fn fmt(&self, out: &mut fmt::Formatter) -> fmt::Result {
        write!(out, "\n    lengths{}\n    bytes  {}", self.lengths, self.bytes)
    }
}

impl Compared for Receive {
    type Given = Chunks;
    type Rows = GuardedChunks;
    type Filled = Guarded<u8>;

    fn rows(source: &mut Source, given: &Chunks) -> GuardedChunks {
        GuardedChunks {
            lengths: Guarded::holding(source, &given.lengths),
            bytes: Guarded::holding(source, &given.bytes),
        }
    }

    fn call(self, rows: &GuardedChunks, _: &mut Guarded<u8>, answer: &mut [u64]) {
        self(rows.lengths.row(), rows.bytes.row(), answer);
    }
}

/// The memory of a call: what is given, what is filled, the answer row.
#[derive(Clone, PartialEq)]
struct Memory<R, B> {
    given: R,
    filled: B,
    answer: Guarded<u64>,
}

impl<R, B: Filled> Memory<R, B> {
    /// The memory before a call.
    fn before<F>(source: &mut Source, call: &Call<F::Given, B::Capacity>) -> Memory<R, B>
    where
        F: Compared<Rows = R, Filled = B>,
    {
        Memory {
            given: F::rows(source, &call.given),
            filled: B::before(source, call.capacity),
            answer: Guarded::filled(source, call.answer),
        }
    }

    /// Makes a call.
    fn call(&mut self, function: impl Compared<Rows = R, Filled = B>) {
        function.call(&self.given, &mut self.filled, self.answer.row_mut());
    }

    /// Makes a call with a row of its own for the five numbers, and stores them in
    /// the answer row if that is long enough.
    fn call_and_store(&mut self, function: impl Compared<Rows = R, Filled = B>) -> Numbers {
        let mut numbers = [0; 5];
        function.call(&self.given, &mut self.filled, &mut numbers);
        store(numbers, self.answer.row_mut());
        numbers
    }
}

impl<R: fmt::Display, B: Filled> fmt::Display for Memory<R, B> {
    fn fmt(&self, out: &mut fmt::Formatter) -> fmt::Result {
        write!(out, "{}\n    buffer{}", self.given, self.filled)?;
        write!(out, "\n    answer{}", self.answer)
    }
}

/// A call of a function.
type CallOf<F> = Call<<F as Compared>::Given, <<F as Compared>::Filled as Filled>::Capacity>;

/// A function under its name in two implementations, the calls that are made of
/// it, and the codes that it can answer with.
struct Pair<F: Compared> {
    name: &'static str,
    codes: &'static [u64],
    call: fn(&mut Source) -> CallOf<F>,
    implementations: [&'static str; 2],
    functions: [F; 2],
}

impl<F: Compared> Pair<F> {
    /// Makes a call of both functions, and again with room for the five numbers
    /// if the answer row was too short to show them.
    fn compared(&self, source: &mut Source) -> Result<u64, String> {
        let call = (self.call)(source);
        let code = self.called(source, &call)?;
        let five = Numbers::default().len();
        if call.answer < five {
            return self.called(source, &Call { answer: five, ..call });
        }
        Ok(code)
    }

    /// Makes a call of both functions. Answers the code under which it is counted, or
    /// says how the two differ or what they changed and must not.
    fn called(&self, source: &mut Source, call: &CallOf<F>) -> Result<u64, String> {
        let before = Memory::before::<F>(source, call);
        let [mut one, mut other] = [before.clone(), before.clone()];
        let numbers = one.call_and_store(self.functions[0]);
        other.call(self.functions[1]);
        // The memory is looked at as it is, whatever a row that was only given lets one infer.
        let [one, other] = black_box([one, other]);
        let mut must = Memory { answer: one.answer.clone(), ..before.clone() };
        must.filled.take(numbers[2] as usize, &one.filled);
        if one == must && other == must {
            return Ok(F::code(numbers, &one.filled));
        }
        let [one_name, other_name] = self.implementations;
        Err(format!(
            "{GUARD} elements on each side of a row\n  before{before}\n  \
             {one_name}: {numbers:?}{one}\n  {other_name}{other}"
        ))
    }

    /// Makes so many calls. Answers one line, or says where the two differ, or
    /// that they did not answer with each of the codes, or with another.
    fn compare(&self, count: usize, seed: u64) -> Result<String, String> {
        let name = self.name;
        let mut source = Source::new(seed);
        let mut tally = Tally::default();
        for index in 0..count {
            let code = self.compared(&mut source);
            tally.count(code.map_err(|how| format!("{name}: case {index} differs: {how}"))?);
        }
        let line = format!("{name}: {count} cases agree: {tally}");
        if tally.met_all(self.codes) {
            Ok(line)
        } else {
            Err(format!("{line}; the codes must be {:?}", self.codes))
        }
    }
}

/// How often a function was done, and how often it answered with each code.
#[derive(Default)]
struct Tally {
    done: usize,
    codes: BTreeMap<u64, usize>,
}

impl Tally {
    fn count(&mut self, code: u64) {
        match code {
            0 => self.done += 1,
            code => *self.codes.entry(code).or_default() += 1,
        }
    }

    /// Whether it was done at times, and answered with these codes and no others.
    fn met_all(&self, codes: &[u64]) -> bool {
        self.done > 0 && self.codes.keys().eq(codes)
    }
}

impl fmt::Display for Tally {
    fn fmt(&self, out: &mut fmt::Formatter) -> fmt::Result {
        write!(out, "{} done, refused", self.done)?;
        self.codes.iter().try_for_each(|(code, times)| write!(out, " {code}: {times}"))
    }
}

/// Compares a function of two implementations on so many calls from a seed.
/// Answers a line; or says where the two differ, or which codes were not met.
pub type Comparison = fn(usize, u64, &[Implementation; 2]) -> Result<String, String>;

macro_rules! comparison {
    ($function:ident, $call:ident, $codes:expr) => {
        comparison!(stringify!($function), $function, $call, $codes)
    };
    ($name:expr, $function:ident, $call:ident, $codes:expr) => {
        ($name, |count, seed, two| {
            let pair = Pair {
                name: $name,
                codes: &$codes,
                call: calls::$call,
                implementations: two.map(|one| one.name),
                functions: two.map(|one| one.$function),
            };
            pair.compare(count, seed)
        })
    };
}

/// The functions that are compared, each with the calls that are made of it and
/// with all the codes that it can answer with; those of `table_diff` but for 1 are what
/// its sheets tell. Those that read or write 01's table, or read an entry of it, are
/// compared again on tables and lists that hold BRACE, those of the C interface on
/// scheme 3.
pub const COMPARISONS: [(&str, Comparison); 34] = [
    comparison!(to_units, to_units, [1, 4]),
    comparison!(to_points, to_points, [1, 10]),
    comparison!(altdude_encode, encode, [1, 2, 3, 4, 5]),
    comparison!(altdude_decode, altdude_decode, [1, 2, 3, 5, 7, 9]),
    comparison!(lace_encode, encode, [1, 2, 3, 4, 6]),
    comparison!(lace_decode, lace_decode, [1, 2, 3, 6, 7, 8, 9]),
    comparison!(altdude_encode_marked, altdude_encode_marked, [1, 2, 3, 4, 5, 15]),
    comparison!(altdude_decode_marked, altdude_decode_marked, [1, 2, 3, 5, 7, 9]),
    comparison!(lace_encode_marked, lace_encode_marked, [1, 2, 3, 4, 6, 15]),
    comparison!(lace_decode_marked, lace_decode_marked, [1, 2, 3, 6, 7, 8, 9]),
    comparison!(brace_encode, brace_encode, [1, 2, 3, 10]),
    comparison!(brace_decode, brace_decode, [1, 2, 3, 5, 7, 9]),
    comparison!(name_encode, name_encode, [1, 2, 3, 4, 16]),
    comparison!(name_decode, name_decode, [1, 2, 3, 5, 6, 7, 9, 16]),
    comparison!(table_read, table_read, [5, 6, 7, 8, 9, 13, 14]),
    comparison!(table_entry, table_entry, [1, 5, 6, 7, 8, 9, 13, 14]),
    comparison!(table_judged_entry, table_entry, [1, 5, 6, 7, 8, 9, 13, 14]),
    comparison!(table_write, table_write, [1, 2, 3, 4, 5, 6, 14]),
    comparison!(table_header, table_header, [13, 14]),
    comparison!(table_lone_entry, table_lone_entry, [1, 5, 6, 7, 8, 9, 13, 14]),
    comparison!(short_read, short_read, [5, 6, 7, 8, 9, 13, 14]),
    comparison!(short_entry, short_entry, [1, 5, 6, 7, 8, 9, 13, 14]),
    comparison!(to_short, to_short, [1, 5, 6, 7, 8, 9, 13, 14]),
    comparison!(to_long, to_long, [1, 5, 6, 7, 8, 9, 13, 14]),
    comparison!(
        table_diff,
        table_diff,
        [1, 105, 106, 107, 108, 109, 113, 114, 205, 206, 207, 208, 209, 213, 214]
    ),
    comparison!(receive, receive, [5, 6, 7, 8, 9, 13, 14]),
    comparison!(write, write, [1, 2, 3, 5, 6, 10, 11, 12]),
    comparison!(read, read, [1, 2, 3, 5, 6, 7, 8, 9, 11]),
    comparison!("table_read, BRACE", table_read, brace_table_read, [5, 6, 7, 8, 9, 13, 14]),
    comparison!("table_entry, BRACE", table_entry, brace_table_entry, [1, 5, 6, 7, 8, 9, 13, 14]),
    comparison!(
        "table_judged_entry, BRACE",
        table_judged_entry,
        brace_table_entry,
        [1, 5, 6, 7, 8, 9, 13, 14]
    ),
    comparison!("table_write, BRACE", table_write, brace_table_write, [1, 2, 3, 4, 5, 6, 14]),
    comparison!("write, BRACE", write, brace_write, [1, 2, 3, 10, 12]),
    comparison!("read, BRACE", read, brace_read, [1, 2, 3, 5, 7, 9]),
];
