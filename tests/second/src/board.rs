//! What the program `board` prints of a run, written from the description of its text alone.

use crate::adder::Work;
use crate::cycle::{cycle, next_work, Answer};
use crate::decimal::{add_decimal, Outcome};
use crate::reading::Reading;
use crate::run::Ending;
use crate::session::{open, turn, Fence};
use crate::shipped::{self, APSP, SHIPPED};
use crate::state::{State, RECORD};
use crate::trap::trap;
use crate::word::LAYOUT;
use crate::{apsp, Refusal};

/// The refusals in words, by number; nothing gives 0, 23, 24, 28 or 31.
pub const WORDS: [&str; 34] = [
    "",
    "a size is wrong: of the word store, of main or of local storage",
    "WX is not in the word store",
    "one of the word's top nine bits is set",
    "PN is wrong",
    "PA is wrong",
    "PS is wrong",
    "PC is wrong",
    "CL = 2 and K to W, or a return, in one word",
    "PK is wrong",
    "a code is not modelled",
    "the main address is not in main storage, or not in the fence",
    "the decimal length is not 1 to 16",
    "a decimal field does not lie in main storage, or in the fence",
    "the decimal fields overlap and do not start together",
    "the deck's length is 0, no multiple of 512, or over 34304",
    "a block's number is not its place",
    "a count, reserved bytes or unused bytes are wrong",
    "a block's check is wrong",
    "the room lent is too small",
    "a field or the address is beyond its width",
    "there are no words, or over 4096",
    "the budget is over 1000000",
    "",
    "",
    "a digit is over 9 in the first fifteen places",
    "the sign digit is below A",
    "the number has more than fifteen digits",
    "",
    "a trap is open, and its return is owed",
    "the trap address is over 4095",
    "",
    "a fence is empty or outside main storage, or the two overlap",
    "the signed field is not of 8 bytes",
];

/// A column of a line: as wide as the wider of its heading and its digits.
struct Column {
    heading: &'static str,
    digits: usize,
    value: u16,
}

fn byte(heading: &'static str, value: u8) -> Column {
    Column { heading, digits: 2, value: value.into() }
}

fn latch(heading: &'static str, on: bool) -> Column {
    Column { heading, digits: 1, value: on.into() }
}

const REGISTERS: [&str; 13] = ["I", "J", "U", "V", "L", "T", "D", "R", "S", "G", "H", "M", "N"];

fn state_columns(state: &State) -> Vec<Column> {
    let mut columns = Vec::with_capacity(RECORD);
    columns.extend(REGISTERS.iter().zip(state.registers).map(|(heading, value)| byte(heading, value)));
    columns.push(Column { heading: "WX", digits: 4, value: state.wx });
    columns.extend([
        latch("AC", state.ac),
        latch("1BC", state.bc1),
        latch("Z0", state.z0),
        latch("AW", state.allow_write),
        latch("LS", state.local),
        latch("AR", state.arriving),
        byte("AB", state.arriving_byte),
        latch("DC", state.digit_carry),
        latch("INV", state.invalid),
        Column { heading: "FWX", digits: 4, value: state.fwx },
        latch("OW", state.owed),
    ]);
    columns
}

fn work_columns(work: &Work) -> [Column; 8] {
    [
        byte("A", work.a_chosen),
        byte("GA", work.a_gated),
        byte("B", work.b_chosen),
        byte("GB", work.b_gated),
        byte("EB", work.b_entering),
        latch("CI", work.carry_in),
        byte("BEFORE", work.before),
        byte("AFTER", work.after),
    ]
}

/// The line of headings.
pub fn header() -> String {
    let mut text = String::from("  CYCLE  AT");
    for Column { heading, digits, .. } in
        state_columns(&State::default()).into_iter().chain(work_columns(&Work::default()))
    {
        text += &format!(" {heading:>digits$}");
    }
    text + "\n"
}

/// So many hexadecimal digits. A million lines have thirty million columns: digit by digit, without `format!`.
fn push_hexadecimal(text: &mut String, value: u16, digits: usize) {
    for place in (0..digits).rev() {
        text.push(char::from(b"0123456789ABCDEF"[usize::from(value >> (4 * place) & 15)]));
    }
}

fn push_columns(text: &mut String, columns: &[Column]) {
    for Column { heading, digits, value } in columns {
        for _ in 0..=heading.len().saturating_sub(*digits) {
            text.push(' ');
        }
        push_hexadecimal(text, *value, *digits);
    }
}

/// The state before the first cycle, as a line.
fn push_start(text: &mut String, state: &State) {
    *text += "      0 ---";
    push_columns(text, &state_columns(state));
    text.push('\n');
}

/// A cycle that ran: its number, its word's address, the state after it and its work.
fn push_line(text: &mut String, number: u64, at: u16, state: &State, work: &Work) {
    *text += &format!("{number:>7} ");
    push_hexadecimal(text, at, 3);
    push_columns(text, &state_columns(state));
    push_columns(text, &work_columns(work));
    text.push('\n');
}

/// The rows of lamps of a record: one lamp where the row is a latch, else eight.
const ROWS: [(&str, bool); RECORD] = [
    ("I", false),
    ("J", false),
    ("U", false),
    ("V", false),
    ("L", false),
    ("T", false),
    ("D", false),
    ("R", false),
    ("S", false),
    ("G", false),
    ("H", false),
    ("M", false),
    ("N", false),
    ("W", false),
    ("X", false),
    ("AC", true),
    ("1BC", true),
    ("Z0", true),
    ("ALLOW", true),
    ("LOCAL", true),
    ("ARRIVING", true),
    ("BYTE", false),
    ("DIGIT-CY", true),
    ("INVALID", true),
    ("FW", false),
    ("FX", false),
    ("OWED", true),
];

/// A row's name, and its lamps from bit 0, the high one, on.
type Row = (&'static str, String);

fn lamp(lit: bool) -> char {
    if lit {
        '*'
    } else {
        '.'
    }
}

fn eight(byte: u8) -> String {
    (0..8).map(|bit| lamp(byte & 0x80 >> bit != 0)).collect()
}

fn one(on: bool) -> String {
    lamp(on).into()
}

fn state_rows(state: &State) -> Vec<Row> {
    let row = |((name, latch), byte): ((_, bool), u8)| (name, if latch { one(byte != 0) } else { eight(byte) });
    ROWS.into_iter().zip(state.to_bytes()).map(row).collect()
}

fn work_rows(work: &Work) -> [Row; 8] {
    [
        ("A", eight(work.a_chosen)),
        ("GATED-A", eight(work.a_gated)),
        ("B", eight(work.b_chosen)),
        ("GATED-B", eight(work.b_gated)),
        ("ENTERS-B", eight(work.b_entering)),
        ("CARRY-IN", one(work.carry_in)),
        ("BEFORE", eight(work.before)),
        ("AFTER", eight(work.after)),
    ]
}

/// Rows side by side, eight in a block: a line of their names over a line of their lamps.
fn push_rows(text: &mut String, rows: &[Row]) {
    for block in rows.chunks(8) {
        let names: String = block.iter().map(|(name, _)| format!("{name:>9}")).collect();
        let lamps: String = block.iter().map(|(_, lamps)| format!("{lamps:>9}")).collect();
        *text += &format!("{names}\n{lamps}\n");
    }
}

/// The state before the first cycle, as lamps.
fn push_start_picture(text: &mut String, state: &State) {
    *text += &format!("CYCLE{:>7}\n", 0);
    push_rows(text, &state_rows(state));
    text.push('\n');
}

fn push_picture(text: &mut String, number: u64, at: u16, state: &State, work: &Work) {
    *text += &format!("CYCLE{number:>7} AT {at:03X}\n");
    push_rows(text, &state_rows(state));
    push_rows(text, &work_rows(work));
    text.push('\n');
}

/// Each lamp by name and number, with the record that lights it alone.
pub fn walk() -> String {
    let mut text = String::new();
    for (place, (name, latch)) in ROWS.into_iter().enumerate() {
        for bit in if latch { 7..8 } else { 0..8 } {
            let number = if latch { " ".into() } else { bit.to_string() };
            let record = (0..RECORD).map(|other| if other == place { 0x80u8 >> bit } else { 0 });
            let bytes: String = record.map(|byte| format!(" {byte:02X}")).collect();
            text += &format!("{name:>9}{number}{bytes}\n");
        }
    }
    text
}

/// How a run ended, where it stands.
pub fn ended(ending: Ending, state: &State) -> String {
    let at = state.wx;
    match ending {
        Ending::Stopped => format!("STOPPED AT {at:03X}\n"),
        Ending::Spent => format!("SPENT AT {at:03X}\n"),
        Ending::Refused { number, field } => {
            let field = if field == 0 { String::new() } else { format!(" {}", LAYOUT[usize::from(field) - 1].0) };
            format!("REFUSED {number}{field} AT {at:03X}: {}\n", in_words(number))
        }
    }
}

pub fn in_words(number: Refusal) -> &'static str {
    WORDS[usize::from(number)]
}

/// Lines or lamps, and the first and the last cycle of those shown.
#[derive(Clone, Copy, Debug)]
pub struct View {
    pub lamps: bool,
    pub from: u64,
    pub to: u64,
}

impl View {
    pub const LINES: View = View { lamps: false, from: 0, to: u64::MAX };
    pub const LAMPS: View = View { lamps: true, ..View::LINES };

    fn push_start(&self, text: &mut String, state: &State) {
        match (self.from, self.lamps) {
            (0, false) => push_start(text, state),
            (0, true) => push_start_picture(text, state),
            _ => {}
        }
    }

    fn push(&self, text: &mut String, number: u64, at: u16, state: &State, work: &Work) {
        if (self.from..=self.to).contains(&number) {
            let push = if self.lamps { push_picture } else { push_line };
            push(text, number, at, state, work);
        }
    }
}

/// A trap asked for in a run: the cycle that it is made before, from 1 on, and its address.
#[derive(Clone, Copy, Debug, PartialEq, Eq)]
pub struct Trap {
    pub before: u64,
    pub address: u32,
}

/// A trap and its line, whatever the view. Refused, the run goes on as if none had been asked.
fn push_trap(text: &mut String, state: &mut State, address: u32) {
    let from = state.wx;
    *text += &match trap(state, address) {
        Ok(()) => format!("TRAP TO {address:03X}, FROM {from:03X}\n"),
        Err(number) => format!("TRAP REFUSED {number} AT {from:03X}: {}\n", in_words(number)),
    };
}

/// A run with no trap in it.
pub fn run(reading: Reading, store: &[u64], main: &[u8], start: State, budget: u64, view: &View) -> (String, Ending) {
    run_with_traps(reading, store, main, start, budget, &[], view)
}

/// A run from a state, with local storage of zeros: all that is printed of it, and how it ended. The reading is not
/// printed. The traps stand in any order, no two of them before one cycle; one before a cycle that the run does not come to
/// is not made.
pub fn run_with_traps(
    reading: Reading,
    store: &[u64],
    main: &[u8],
    start: State,
    budget: u64,
    traps: &[Trap],
    view: &View,
) -> (String, Ending) {
    let (mut main, mut local, mut state) = (main.to_vec(), [0; 256], start);
    let mut text = if view.lamps { String::new() } else { header() };
    view.push_start(&mut text, &state);
    let mut ending = Ending::Spent;
    for number in 1..=budget {
        if let Some(asked) = traps.iter().find(|asked| asked.before == number) {
            push_trap(&mut text, &mut state, asked.address);
        }
        let (at, work) = (state.wx, next_work(store, &state));
        match cycle(reading, store, &mut main, &mut local, &mut state) {
            Answer::Ran => view.push(&mut text, number, at, &state, &work.expect("the work of a cycle that ran")),
            other => ending = Ending::with(other),
        }
        if ending != Ending::Spent {
            break;
        }
    }
    text += &ended(ending, &state);
    (text, ending)
}

/// Two boards at one store and one image of main storage, as `board two` is given them; of a pair, the first is board A's.
pub struct Two<'a> {
    pub reading: Reading,
    pub store: &'a [u64],
    pub main: &'a [u8],
    pub fences: [Fence; 2],
    /// Letters A and B, of which at least one, and small ones too: whose turn it is, repeated as needed.
    pub order: &'a str,
    pub starts: [State; 2],
    pub turns: u64,
}

/// One of the two as it goes on.
struct Board {
    letter: char,
    local: [u8; 256],
    state: State,
    /// How many of its cycles have run.
    ran: u64,
    /// Spent as long as it goes on; what it stopped with or was refused by stays.
    ending: Ending,
}

impl Board {
    fn new(letter: char, state: State) -> Board {
        Board { letter, local: [0; 256], state, ran: 0, ending: Ending::Spent }
    }

    /// What `board run` prints, its lines after the board's letter.
    fn say(&self, text: &mut String, said: &str) {
        for line in said.split_inclusive('\n') {
            text.extend([self.letter, ' ']);
            *text += line;
        }
    }

    fn goes_on(&self) -> bool {
        self.ending == Ending::Spent
    }

    /// A turn over main storage, and its line. That of a board that does not go on passes: it would change nothing.
    fn take(&mut self, text: &mut String, asked: &Two, main: &mut [u8], [own, other]: [Fence; 2], view: &View) {
        if !self.goes_on() {
            return;
        }
        let (at, work) = (self.state.wx, next_work(asked.store, &self.state));
        let answer = turn(asked.reading, asked.store, main, &mut self.local, &mut self.state, own, other);
        self.ending = Ending::with(answer);
        let mut said = String::new();
        if answer == Answer::Ran {
            self.ran += 1;
            view.push(&mut said, self.ran, at, &self.state, &work.expect("the work of a cycle that ran"));
        } else {
            said = ended(self.ending, &self.state);
        }
        self.say(text, &said);
    }
}

/// Whose turn each letter of an order makes it: 0 is board A.
fn boards_of(order: &str) -> Vec<usize> {
    let board = |letter| match letter {
        'A' | 'a' => 0,
        'B' | 'b' => 1,
        other => panic!("{other} is no board"),
    };
    order.chars().map(board).collect()
}

/// All the turns, those that pass counted with the others, and a line of each that is shown.
fn take_turns(text: &mut String, asked: &Two, boards: &mut [Board; 2], view: &View) {
    let (mut main, order) = (asked.main.to_vec(), boards_of(asked.order));
    for (_, &which) in (0..asked.turns).zip(order.iter().cycle()) {
        boards[which].take(text, asked, &mut main, [asked.fences[which], asked.fences[1 - which]], view);
    }
}

/// All that is printed of two boards that take turns, each with local storage of zeros, and which of them were refused; or
/// what refuses the fences, and then nothing is printed. A stop and a refusal are told once, in their turn; a board that goes
/// on is spent, at the end. The view is one of lines.
pub fn two(asked: &Two, view: &View) -> Result<(String, [bool; 2]), Refusal> {
    let [a, b] = asked.fences;
    open(asked.main.len(), a, b)?;
    let mut boards = [Board::new('A', asked.starts[0]), Board::new('B', asked.starts[1])];
    let mut text = format!("  {}", header());
    for board in &boards {
        let mut said = String::new();
        view.push_start(&mut said, &board.state);
        board.say(&mut text, &said);
    }
    take_turns(&mut text, asked, &mut boards, view);
    for board in boards.iter().filter(|board| board.goes_on()) {
        board.say(&mut text, &ended(Ending::Spent, &board.state));
    }
    Ok((text, boards.map(|board| matches!(board.ending, Ending::Refused { .. }))))
}

// Where an addition's fields lie.
const FIRST: usize = 0x100;
const SECOND: usize = 0x200;

/// A number's digits at the right end of a field, over zeros.
fn lay_out(field: &mut [u8], digits: &str) {
    let width = 2 * field.len();
    let digits = format!("{digits:0>width$}");
    for (place, byte) in field.iter_mut().enumerate() {
        *byte = u8::from_str_radix(&digits[2 * place..2 * place + 2], 16).expect("two digits");
    }
}

/// Two numbers' digits in 1,024 bytes of zeros, each in as many bytes as the longer of them needs; and how many these are.
fn laid_out(first: &str, second: &str) -> (Vec<u8>, usize) {
    let length = first.len().max(second.len()).div_ceil(2);
    let mut main = vec![0; 1024];
    lay_out(&mut main[FIRST..FIRST + length], first);
    lay_out(&mut main[SECOND..SECOND + length], second);
    (main, length)
}

/// The digits of the first of so many bytes.
fn first_field(main: &[u8], length: usize) -> String {
    main[FIRST..FIRST + length].iter().map(|byte| format!("{byte:02X}")).collect()
}

/// What an addition came to, by whole numbers and not by the shipped words.
fn result(first: &str, second: &str, main: &mut [u8], length: usize, carry: bool) -> String {
    match add_decimal(main, &[0; 256], FIRST, SECOND, length, carry) {
        Outcome::Summed { carry } => {
            format!("{first} + {second} = {} CARRY {}\n", first_field(main, length), u8::from(carry))
        }
        Outcome::BadDigit => format!("{first} + {second}: BAD DIGIT\n"),
        Outcome::Refused { number } => panic!("{first} + {second} is refused by {number}"),
    }
}

/// The cycles of a shipped program over main storage, from its start; "the shipped programs are run under basic".
fn cycles(program: &[u64], main: &[u8], start: State, view: &View) -> String {
    run(Reading::Basic, program, main, start, shipped::bound(&start), view).0
}

/// All that is printed of an addition of two numbers of 1 to 32 digits.
pub fn add(first: &str, second: &str, carry: bool, view: &View) -> String {
    let (mut main, length) = laid_out(first, second);
    let start = shipped::start(FIRST as u16, SECOND as u16, length as u8, carry);
    cycles(&SHIPPED, &main, start, view) + &result(first, second, &mut main, length, carry)
}

/// The digits of a number as it was typed, and then its sign digit: "a first character '+' or '-' is the sign; else a last
/// character '+' or '-'; else ':' as the last character but one; else plus".
fn with_sign_digit(typed: &str) -> String {
    let before = typed.strip_prefix(['+', '-']).map(|digits| (digits, &typed[..1]));
    let after = typed.strip_suffix(['+', '-']).map(|digits| (digits, &typed[digits.len()..]));
    let (digits, sign) = before.or(after).or(typed.split_once(':')).unwrap_or((typed, "+"));
    let sign = match sign {
        "+" => "C",
        "-" => "D",
        digit => digit,
    };
    format!("{digits}{sign}")
}

/// A field's digits with + or - for its sign digit C or D.
fn shown_signed(field: &str) -> String {
    let minus = field.strip_suffix('D').map(|digits| format!("{digits}-"));
    minus.unwrap_or_else(|| format!("{}+", field.strip_suffix('C').expect("a preferred sign")))
}

/// What AP or SP came to, by whole numbers and not by its words.
fn signed_result(said: &str, main: &mut [u8], length: usize, subtract: bool) -> String {
    match apsp::add_signed(main, &[0; 256], FIRST, SECOND, length, subtract) {
        apsp::Outcome::Done { overflow } => {
            let told = if overflow { " OVERFLOW" } else { "" };
            format!("{said} = {}{told}\n", shown_signed(&first_field(main, length)))
        }
        apsp::Outcome::Bad => format!("{said}: BAD DIGIT OR SIGN\n"),
        apsp::Outcome::Refused { number } => panic!("{said} is refused by {number}"),
    }
}

/// All that is printed of AP or SP of two numbers of 1 to 31 digits, as they were typed.
pub fn signed(first: &str, second: &str, subtract: bool, view: &View) -> String {
    let (mut main, length) = laid_out(&with_sign_digit(first), &with_sign_digit(second));
    let start = shipped::start_apsp(FIRST as u16, SECOND as u16, length as u8, subtract);
    let said = format!("{first} {} {second}", if subtract { "SP" } else { "AP" });
    cycles(&APSP, &main, start, view) + &signed_result(&said, &mut main, length, subtract)
}

#[cfg(test)]
mod tests {
    use super::*;
    use crate::state::LATCHES;
    use crate::word::build;

    const HEADER: &str = "  CYCLE  AT  I  J  U  V  L  T  D  R  S  G  H  M  N   WX AC 1BC Z0 AW LS AR AB DC INV  \
                          FWX OW  A GA  B GB EB CI BEFORE AFTER\n";

    /// Every column has a value of its own.
    fn all_different() -> (State, Work) {
        let bytes = std::array::from_fn(|place| if LATCHES.contains(&place) { 0 } else { 0xA0 + place as u8 });
        let work = Work {
            a_chosen: 0xC1,
            a_gated: 0xC2,
            b_chosen: 0xC3,
            b_gated: 0xC4,
            b_entering: 0xC5,
            carry_in: true,
            before: 0xC6,
            after: 0xC7,
        };
        (State { ac: true, z0: true, local: true, invalid: true, owed: true, ..State::from_bytes(&bytes) }, work)
    }

    #[test]
    fn headings_stand_over_their_columns() {
        assert_eq!(header(), HEADER);
        let (state, work) = all_different();
        let mut line = String::new();
        push_line(&mut line, 1_000_000, 0xFED, &state, &work);
        assert_eq!(
            line,
            "1000000 FED A0 A1 A2 A3 A4 A5 A6 A7 A8 A9 AA AB AC ADAE  1   0  1  0  1  0 B5  0   1 \
             B8B9  1 C1 C2 C3 C4 C5  1     C6    C7\n"
        );
        assert_eq!((line.len(), HEADER.len()), (124, 124));
    }

    #[test]
    fn the_start_has_no_address_and_no_work() {
        let mut line = String::new();
        push_start(&mut line, &all_different().0);
        assert_eq!(
            line,
            "      0 --- A0 A1 A2 A3 A4 A5 A6 A7 A8 A9 AA AB AC ADAE  1   0  1  0  1  0 B5  0   1 B8B9  1\n"
        );
        assert_eq!(line.len(), 93);
    }

    /// Of the same state and work, set out by hand.
    const PICTURE: &str = "\
CYCLE     12 AT 00F
        I        J        U        V        L        T        D        R
 *.*..... *.*....* *.*...*. *.*...** *.*..*.. *.*..*.* *.*..**. *.*..***
        S        G        H        M        N        W        X       AC
 *.*.*... *.*.*..* *.*.*.*. *.*.*.** *.*.**.. *.*.**.* *.*.***.        *
      1BC       Z0    ALLOW    LOCAL ARRIVING     BYTE DIGIT-CY  INVALID
        .        *        .        *        . *.**.*.*        .        *
       FW       FX     OWED
 *.***... *.***..*        *
        A  GATED-A        B  GATED-B ENTERS-B CARRY-IN   BEFORE    AFTER
 **.....* **....*. **....** **...*.. **...*.*        * **...**. **...***

";

    #[test]
    fn lamps_stand_under_their_names() {
        let (state, work) = all_different();
        let mut picture = String::new();
        push_picture(&mut picture, 12, 0x00F, &state, &work);
        assert_eq!(picture, PICTURE);
        assert_eq!(picture.len(), 661);
        let mut start = String::new();
        push_start_picture(&mut start, &state);
        assert_eq!(start.len(), 508);
        let lines: Vec<&str> = PICTURE.lines().collect();
        assert_eq!(start.lines().collect::<Vec<_>>(), [&["CYCLE      0"], &lines[1..9], &[""]].concat());
    }

    #[test]
    fn the_walk_has_a_line_for_each_lamp() {
        let text = walk();
        let lines: Vec<&str> = text.lines().collect();
        assert_eq!((text.len(), lines.len()), (14_076, 153));
        let first = "        I0 80 00 00 00 00 00 00 00 00 00 00 00 00 00 00 00 00 00 00 00 00 00 00 00 00 00 00";
        let last = "     OWED  00 00 00 00 00 00 00 00 00 00 00 00 00 00 00 00 00 00 00 00 00 00 00 00 00 00 01";
        assert_eq!((lines[0], lines[152]), (first, last));
        for line in [
            "      1BC  00 00 00 00 00 00 00 00 00 00 00 00 00 00 00 00 01 00 00 00 00 00 00 00 00 00 00",
            "     BYTE7 00 00 00 00 00 00 00 00 00 00 00 00 00 00 00 00 00 00 00 00 00 01 00 00 00 00 00",
            " DIGIT-CY  00 00 00 00 00 00 00 00 00 00 00 00 00 00 00 00 00 00 00 00 00 00 01 00 00 00 00",
            "  INVALID  00 00 00 00 00 00 00 00 00 00 00 00 00 00 00 00 00 00 00 00 00 00 00 01 00 00 00",
            "       FW0 00 00 00 00 00 00 00 00 00 00 00 00 00 00 00 00 00 00 00 00 00 00 00 00 80 00 00",
            "       FX7 00 00 00 00 00 00 00 00 00 00 00 00 00 00 00 00 00 00 00 00 00 00 00 00 00 01 00",
        ] {
            assert!(lines.contains(&line), "{line}");
        }
    }

    #[test]
    fn endings_name_the_address_and_the_refusal() {
        let state = State { wx: 5, ..State::default() };
        let of = |ending| ended(ending, &state);
        assert_eq!(of(Ending::Stopped), "STOPPED AT 005\n");
        assert_eq!(of(Ending::Spent), "SPENT AT 005\n");
        let refused = |number, field| of(Ending::Refused { number, field });
        assert_eq!(refused(10, 8), "REFUSED 10 CA AT 005: a code is not modelled\n");
        assert_eq!(refused(11, 0), "REFUSED 11 AT 005: the main address is not in main storage, or not in the fence\n");
    }

    #[test]
    fn an_addition_ends_with_its_sum() {
        let last = |first, second, carry| add(first, second, carry, &View::LINES).lines().last().map(str::to_owned);
        assert_eq!(last("38", "47", false).as_deref(), Some("38 + 47 = 85 CARRY 0"));
        assert_eq!(last("999", "1", true).as_deref(), Some("999 + 1 = 1001 CARRY 0"));
        assert_eq!(last("99", "0", true).as_deref(), Some("99 + 0 = 00 CARRY 1"));
        assert_eq!(last("9", "a", false).as_deref(), Some("9 + a: BAD DIGIT"));
    }

    #[test]
    fn a_number_is_typed_with_its_sign_in_any_way() {
        for (typed, digits) in [
            ("190", "190C"),
            ("+190", "190C"),
            ("-190", "190D"),
            ("190+", "190C"),
            ("190-", "190D"),
            ("190:F", "190F"),
            ("190:b", "190b"),
            ("190:5", "1905"),
            ("d", "dC"),
            ("0", "0C"),
        ] {
            assert_eq!(with_sign_digit(typed), digits, "{typed}");
        }
    }

    #[test]
    fn a_signed_sum_ends_with_its_result() {
        let last =
            |first, second, subtract| signed(first, second, subtract, &View::LINES).lines().last().map(str::to_owned);
        assert_eq!(last("190+", "200-", false).as_deref(), Some("190+ AP 200- = 010-"));
        assert_eq!(last("190", "200", true).as_deref(), Some("190 SP 200 = 010-"));
        assert_eq!(last("5-", "5-", false).as_deref(), Some("5- AP 5- = 0- OVERFLOW"));
        assert_eq!(last("190:5", "200", false).as_deref(), Some("190:5 AP 200: BAD DIGIT OR SIGN"));
    }

    /// The paper's own: 44 cycles of 138 + 117, and 71 of 190 - 200.
    #[test]
    fn a_signed_sum_shows_its_cycles() {
        for (first, second, subtract, cycles) in [("138", "117", false, 44), ("190", "200", true, 71)] {
            let text = signed(first, second, subtract, &View::LINES);
            let lines: Vec<&str> = text.lines().collect();
            assert_eq!((lines.len(), lines[cycles + 2]), (cycles + 4, "STOPPED AT 033"));
        }
    }

    #[test]
    fn only_the_cycles_asked_for_are_shown() {
        let all = add("38", "47", false, &View::LINES);
        let lines: Vec<&str> = all.lines().collect();
        let of = |from, to| add("38", "47", false, &View { from, to, ..View::LINES });
        assert_eq!(of(0, 0).lines().collect::<Vec<_>>(), [&lines[..2], &lines[lines.len() - 2..]].concat());
        assert_eq!(
            of(3, 4).lines().collect::<Vec<_>>(),
            [&lines[..1], &lines[4..6], &lines[lines.len() - 2..]].concat()
        );
        assert_eq!(of(99, 99).lines().count(), 3);
    }

    /// Three words that add nothing and go round, a return at 0A0, a stop at 0A1, and no word at 0A2.
    fn trapped() -> Vec<u64> {
        let mut store = vec![0; 0xA2];
        let mut put = |at: usize, codes: &[(&str, u8)]| store[at] = build(at as u32, codes).unwrap();
        put(0, &[("CA", 4), ("CM", 1), ("CL", 1)]);
        put(1, &[("CA", 4), ("CM", 1), ("CH", 1)]);
        put(2, &[("CA", 4), ("CM", 1)]);
        put(0xA0, &[("CA", 4), ("CM", 1), ("CU", 3), ("CN", 63)]);
        put(0xA1, &[("CF", 4)]);
        store
    }

    /// A line of `TRAP` and one of an ending as they are, and of the others the cycle's number and address.
    fn outline(traps: &[Trap], budget: u64, view: &View) -> Vec<String> {
        let (text, _) = run_with_traps(Reading::Basic, &trapped(), &[0], State::default(), budget, traps, view);
        let said = ["TRAP", "STOPPED", "SPENT", "REFUSED"];
        let short = |line: &str| {
            let whole = said.iter().any(|word| line.starts_with(word));
            if whole { line } else { line[..11].trim_start() }.to_owned()
        };
        text.lines().skip(1).map(short).collect()
    }

    fn traps<const COUNT: usize>(asked: [(u64, u32); COUNT]) -> [Trap; COUNT] {
        asked.map(|(before, address)| Trap { before, address })
    }

    #[test]
    fn a_trap_is_a_line_before_its_cycle() {
        let view = &View { from: 1, ..View::LINES };
        assert_eq!(
            outline(&traps([(3, 0xA0)]), 5, view),
            ["1 000", "2 001", "TRAP TO 0A0, FROM 002", "3 0A0", "4 002", "5 000", "SPENT AT 001"]
        );
        // They stand in any order. The first cycle closes the first trap, so the second is taken.
        assert_eq!(
            outline(&traps([(2, 1), (1, 0xA0)]), 2, view),
            ["TRAP TO 0A0, FROM 000", "1 0A0", "TRAP TO 001, FROM 000", "2 001", "SPENT AT 002"]
        );
        assert_eq!(
            outline(&traps([(1, 1), (2, 4096)]), 2, view),
            [
                "TRAP TO 001, FROM 000",
                "1 001",
                "TRAP REFUSED 29 AT 002: a trap is open, and its return is owed",
                "2 002",
                "SPENT AT 000"
            ]
        );
        assert_eq!(
            outline(&traps([(2, 4096)]), 2, view),
            ["1 000", "TRAP REFUSED 30 AT 001: the trap address is over 4095", "2 001", "SPENT AT 002"]
        );
    }

    #[test]
    fn a_trap_comes_before_a_stop_and_a_refusal_and_not_after_the_end() {
        let view = &View { from: 1, ..View::LINES };
        let of = |asked: &[Trap], budget| outline(asked, budget, view);
        assert_eq!(of(&traps([(1, 0xA1)]), 9), ["TRAP TO 0A1, FROM 000", "STOPPED AT 0A1"]);
        let lines = of(&traps([(1, 0xA2), (2, 0)]), 9);
        assert_eq!(lines, ["TRAP TO 0A2, FROM 000", "REFUSED 2 AT 0A2: WX is not in the word store"]);
        // The budget is spent, or the run has stopped, before that cycle.
        assert_eq!(of(&traps([(1, 0)]), 0), ["SPENT AT 000"]);
        assert_eq!(of(&traps([(3, 0)]), 2), ["1 000", "2 001", "SPENT AT 002"]);
        assert_eq!(of(&traps([(1, 0xA1), (2, 0)]), 9).len(), 2);
        // From a stop, and from where there is no word.
        for at in [0xA1, 0xA2] {
            let start = State { wx: at, ..State::default() };
            let (text, ending) = run_with_traps(Reading::Basic, &trapped(), &[0], start, 1, &traps([(1, 0)]), view);
            let lines: Vec<&str> = text.lines().skip(1).collect();
            assert_eq!((lines[0], lines[2]), (&*format!("TRAP TO 000, FROM {at:03X}"), "SPENT AT 001"));
            assert_eq!(ending, Ending::Spent);
        }
    }

    #[test]
    fn a_trap_has_its_line_in_every_view() {
        let asked = traps([(2, 0xA0), (4, 0xFFF)]);
        let told = ["TRAP TO 0A0, FROM 001", "TRAP TO FFF, FROM 002"];
        for lamps in [false, true] {
            for (from, to) in [(0, u64::MAX), (0, 0), (3, 3), (99, 99)] {
                let view = View { lamps, from, to };
                let (text, _) = run_with_traps(Reading::Basic, &trapped(), &[0], State::default(), 4, &asked, &view);
                let lines: Vec<&str> = text.lines().filter(|line| line.starts_with("TRAP")).collect();
                assert_eq!(lines, told);
                let rest: String = text.split_inclusive('\n').filter(|line| !line.starts_with("TRAP")).collect();
                assert_eq!(rest.lines().last(), Some("REFUSED 2 AT FFF: WX is not in the word store"));
            }
        }
    }

    #[test]
    fn without_traps_it_is_the_run() {
        for view in [View::LINES, View::LAMPS] {
            let of =
                |asked: &[Trap]| run_with_traps(Reading::Basic, &trapped(), &[0], State::default(), 7, asked, &view);
            assert_eq!(of(&[]), run(Reading::Basic, &trapped(), &[0], State::default(), 7, &view));
            // One that is refused leaves a line, and nothing else.
            let (text, ending) = of(&traps([(5, 4096)]));
            let rest: String = text.split_inclusive('\n').filter(|line| !line.starts_with("TRAP")).collect();
            assert_eq!((rest, ending), of(&[]));
            assert_ne!(text, of(&[]).0);
        }
    }

    #[test]
    fn three_refusals_speak_of_fences() {
        assert_eq!(in_words(11), "the main address is not in main storage, or not in the fence");
        assert_eq!(in_words(13), "a decimal field does not lie in main storage, or in the fence");
        assert_eq!(in_words(32), "a fence is empty or outside main storage, or the two overlap");
    }

    /// L is added to a byte of local storage and to one of main storage, for ever. At 008 a stop, and no word after it.
    fn tallying() -> Vec<u64> {
        let mut store = vec![0; 9];
        let mut put = |at: usize, next: u8, codes: &[(&str, u8)]| {
            let address = [("CN", next / 4), ("CH", next / 2 % 2), ("CL", next % 2)];
            store[at] = build(at as u32, &[&address, codes].concat()).unwrap();
        };
        for (at, next, read) in [(0, 3, [("CM", 4), ("CU", 1)]), (3, 0, [("CM", 3), ("CU", 0)])] {
            put(at, at as u8 + 1, &[&[("CA", 4)], &read[..]].concat());
            put(at + 1, at as u8 + 2, &[("CM", 1), ("CA", 9), ("CF", 3), ("CG", 3), ("CD", 7)]);
            put(at + 2, next, &[("CA", 4), ("CM", 0)]);
        }
        put(8, 0, &[("CF", 4)]);
        store
    }

    const FENCES: [Fence; 2] = [Fence { start: 0x10, end: 0x20 }, Fence { start: 0x20, end: 0x28 }];

    /// Both look at the same byte of local storage, and each at one of its own fence: A's last and B's first.
    fn seated(wx: [u16; 2]) -> [State; 2] {
        use crate::state::{J, L};
        [(0x1F, 1, wx[0]), (0x20, 7, wx[1])].map(|(j, l, wx)| {
            let mut state = State { wx, ..State::default() };
            (state.registers[J], state.registers[L]) = (j, l);
            state
        })
    }

    /// Of those words and fences, over 40 bytes of zeros.
    fn of_two(wx: [u16; 2], order: &str, turns: u64, view: &View) -> (String, [bool; 2]) {
        let (store, main) = (tallying(), [0; 40]);
        let asked = Two {
            reading: Reading::Basic,
            store: &store,
            main: &main,
            fences: FENCES,
            order,
            starts: seated(wx),
            turns,
        };
        two(&asked, view).expect("right fences")
    }

    /// Each line but the headings: up to its address where it is a cycle's, else all of it.
    fn told(text: &str) -> Vec<&str> {
        text.lines().skip(1).map(|line| if line[2..].starts_with(' ') { line[..13].trim_end() } else { line }).collect()
    }

    #[test]
    fn two_boards_that_go_on_have_a_line_a_turn() {
        let (text, refused) = of_two([4, 0], "AB", 5, &View::LINES);
        assert_eq!(text.lines().next(), Some(&*format!("  {}", HEADER.trim_end())));
        let lines =
            ["A       0 ---", "B       0 ---", "A       1 004", "B       1 000", "A       2 005", "B       2 001"];
        let last = ["A       3 000", "A SPENT AT 001", "B SPENT AT 002"];
        assert_eq!((told(&text), refused), ([&lines[..], &last].concat(), [false; 2]));
        assert!(text.lines().skip(1).take(7).all(|line| [95, 126].contains(&(line.len() + 1))), "{text}");
    }

    /// Each board's own lines are all that `board run` prints of it alone, the headings apart.
    #[test]
    fn two_boards_print_what_each_prints_alone() {
        for (order, of_a, of_b) in [
            ("AB", 20, 20),
            ("ab", 20, 20),
            ("BA", 20, 20),
            ("AAB", 27, 13),
            ("ABBBA", 16, 24),
            ("A", 40, 0),
            ("b", 0, 40),
        ] {
            let (text, refused) = of_two([0, 3], order, 40, &View::LINES);
            let [a, b] = seated([0, 3]);
            for (letter, start, cycles) in [("A ", a, of_a), ("B ", b, of_b)] {
                let (alone, ending) = run(Reading::Basic, &tallying(), &[0; 40], start, cycles, &View::LINES);
                let own: Vec<&str> = text.lines().filter_map(|line| line.strip_prefix(letter)).collect();
                assert_eq!(own, alone.lines().skip(1).collect::<Vec<_>>(), "{letter}of {order}");
                assert_eq!(ending, Ending::Spent);
            }
            assert_eq!(refused, [false; 2]);
        }
    }

    #[test]
    fn a_board_that_stops_or_is_refused_says_so_once() {
        let view = &View { from: 1, ..View::LINES };
        let stop = "A STOPPED AT 008";
        let none = "B REFUSED 2 AT 00A: WX is not in the word store";
        for (order, lines) in [
            ("AB", vec![stop, none]),
            ("BA", vec![none, stop]),
            ("AAB", vec![stop, none]),
            ("BBA", vec![none, stop]),
            ("A", vec![stop, "B SPENT AT 00A"]),
            ("BB", vec![none, "A SPENT AT 008"]),
        ] {
            let refused = [false, order.contains('B')];
            for turns in [3, 4, 99] {
                let (text, who) = of_two([8, 10], order, turns, view);
                assert_eq!((told(&text), who), (lines.clone(), refused), "{order}");
            }
        }
        // The turns end before the other has one.
        let (text, refused) = of_two([10, 8], "AAB", 2, view);
        let none = "A REFUSED 2 AT 00A: WX is not in the word store";
        assert_eq!((told(&text), refused), (vec![none, "B SPENT AT 008"], [true, false]));
    }

    /// They print nothing, and the other has no more turns for them.
    #[test]
    fn turns_that_pass_are_counted() {
        let view = &View { from: 1, ..View::LINES };
        let (text, refused) = of_two([0, 10], "ABB", 7, view);
        let none = "B REFUSED 2 AT 00A: WX is not in the word store";
        let lines = ["A       1 000", none, "A       2 001", "A       3 002", "A SPENT AT 003"];
        assert_eq!((told(&text), refused), (lines.to_vec(), [false, true]));
        let (text, refused) = of_two([8, 2], "AAB", 5, view);
        assert_eq!((told(&text), refused), (vec!["A STOPPED AT 008", "B       1 002", "B SPENT AT 003"], [false; 2]));
    }

    /// Its own fence, and not main storage: A's pair is moved to B's byte.
    #[test]
    fn a_board_is_refused_by_11_in_the_others_fence() {
        let (store, main) = (tallying(), [0; 40]);
        let starts = [seated([3, 3])[1]; 2];
        let asked =
            Two { reading: Reading::Basic, store: &store, main: &main, fences: FENCES, order: "AB", starts, turns: 3 };
        let (text, refused) = two(&asked, &View { from: 1, ..View::LINES }).expect("right fences");
        let line = "A REFUSED 11 AT 003: the main address is not in main storage, or not in the fence";
        assert_eq!((told(&text), refused), (vec![line, "B       1 003", "B SPENT AT 004"], [true, false]));
    }

    #[test]
    fn no_turn_is_two_starts_and_two_endings() {
        let lines = ["A       0 ---", "B       0 ---", "A SPENT AT 000", "B SPENT AT 00A"];
        assert_eq!(told(&of_two([0, 10], "AB", 0, &View::LINES).0), lines);
    }

    /// A cycle's number is the board's own; a stop is shown whatever is asked for, where it came about.
    #[test]
    fn two_boards_show_the_cycles_asked_for() {
        let of = |from, to| {
            let (text, _) = of_two([0, 8], "AABA", 8, &View { from, to, ..View::LINES });
            told(&text).into_iter().map(str::to_owned).collect::<Vec<_>>()
        };
        let stop = "B STOPPED AT 008";
        assert_eq!(of(0, 0), ["A       0 ---", "B       0 ---", stop, "A SPENT AT 000"]);
        assert_eq!(of(2, 4), ["A       2 001", stop, "A       3 002", "A       4 003", "A SPENT AT 000"]);
        assert_eq!(of(6, 6), [stop, "A       6 005", "A SPENT AT 000"]);
        assert_eq!(of(7, 9), [stop, "A SPENT AT 000"]);
    }

    #[test]
    fn wrong_fences_print_nothing() {
        let (store, main) = (tallying(), [0; 40]);
        let of = |fences| {
            let (order, starts) = ("AB", seated([0, 0]));
            two(
                &Two { reading: Reading::Basic, store: &store, main: &main, fences, order, starts, turns: 9 },
                &View::LINES,
            )
        };
        let fence = |start, end| Fence { start, end };
        assert!(of([fence(0, 20), fence(20, 40)]).is_ok());
        for fences in [
            [fence(0, 21), fence(20, 40)],
            [fence(0, 20), fence(20, 41)],
            [fence(20, 41), fence(0, 20)],
            [fence(5, 5), fence(20, 40)],
            [fence(0, 20), fence(30, 29)],
        ] {
            assert_eq!(of(fences), Err(32), "{fences:?}");
        }
    }

    /// CH 8 is R2 there, and S1 in basic.
    #[test]
    fn one_reading_serves_both_boards() {
        let store = [build(0, &[("CA", 4), ("CM", 1), ("CH", 8)]).unwrap(), 0, 0];
        let mut start = State::default();
        start.registers[crate::state::R] = 0x20;
        for (reading, next) in [(Reading::Basic, "000"), (Reading::Compatibility, "002")] {
            let asked = Two {
                reading,
                store: &store,
                main: &[0; 40],
                fences: FENCES,
                order: "AB",
                starts: [start; 2],
                turns: 2,
            };
            let (text, _) = two(&asked, &View { from: 9, ..View::LINES }).expect("right fences");
            assert_eq!(told(&text), ["A", "B"].map(|letter| format!("{letter} SPENT AT {next}")));
        }
    }
}
