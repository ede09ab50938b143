// The measured part of gm as a plain Rust program with std alone: the same rules, the same replies and the same
// numbers of examined rows. `run.sh` times gm beside it.
//
// Covered: `create` of types of String, Integer, Long, Boolean, Date and Point attributes with their options and
// the user datum `geomesa.z.splits`; `put` of rows without quotes; `delete`; `query` and `count`, with `target=`, of
// BBOX, DURING, `=`, `<`, `<=`, `>`, `>=`, BETWEEN, IN of identifiers and INCLUDE, and of AND between these.
// All else of the language is refused here, mostly with another code than gm's: other geometries, user data,
// commands and tests, OR, NOT, brackets, quotes in rows, names in quotes and `index=`.
use std::cmp::Ordering;
use std::io::{self, BufRead, BufReader, Write};

// ---- Refusals

type Refusal = &'static str;

const TOO_LONG: Refusal = "E01 line too long";
const NOT_UTF8: Refusal = "E02 not UTF-8";
const UNKNOWN_COMMAND: Refusal = "E03 unknown command";
const FORM: Refusal = "E04 command form";
const TYPE_EXISTS: Refusal = "E05 type exists";
const NO_TYPE: Refusal = "E06 no such type";
const SPECIFICATION: Refusal = "E07 type specification";
const FIELD_COUNT: Refusal = "E08 field count";
const UNREADABLE: Refusal = "E09 unreadable value";
const GEOMETRY: Refusal = "E10 geometry";
const NO_BIN: Refusal = "E11 date outside the bins";
const IDENTIFIER: Refusal = "E12 identifier";
const NO_FEATURE: Refusal = "E13 no such feature";
const SYNTAX: Refusal = "E14 filter syntax";
const UNKNOWN_NAME: Refusal = "E15 unknown attribute";
const LITERAL: Refusal = "E16 literal";
const LIMIT: Refusal = "E19 limit";

// ---- Coordinates, in units of 10^-7 degree

#[derive(Clone, Copy)]
struct Point {
    x: i32,
    y: i32,
}

impl Point {
    fn is_in_world(&self) -> bool {
        self.x.unsigned_abs() <= 1_800_000_000 && self.y.unsigned_abs() <= 900_000_000
    }
}

#[derive(Clone, Copy)]
struct Area {
    low: Point,
    high: Point,
}

impl Area {
    fn contains(&self, point: Point) -> bool {
        self.low.x <= point.x
            && point.x <= self.high.x
            && self.low.y <= point.y
            && point.y <= self.high.y
    }

    fn is_void(&self) -> bool {
        self.high.x < self.low.x || self.high.y < self.low.y
    }

    fn met(&self, other: &Area) -> Area {
        Area {
            low: Point {
                x: self.low.x.max(other.low.x),
                y: self.low.y.max(other.low.y),
            },
            high: Point {
                x: self.high.x.min(other.high.x),
                y: self.high.y.min(other.high.y),
            },
        }
    }
}

enum NumberFault {
    Form,
    Big,
}

fn split_sign(text: &[u8]) -> (bool, &[u8]) {
    match text {
        [b'-', rest @ ..] => (true, rest),
        [b'+', rest @ ..] => (false, rest),
        _ => (false, text),
    }
}

fn split_digits(text: &[u8]) -> (&[u8], &[u8]) {
    let count = text
        .iter()
        .position(|byte| !byte.is_ascii_digit())
        .unwrap_or(text.len());
    text.split_at(count)
}

fn number_of(digits: &[u8]) -> u128 {
    digits
        .iter()
        .fold(0, |number, digit| number * 10 + u128::from(digit - b'0'))
}

// A decimal number in units of 10^-7, rounded half away from 0.
fn read_fixed(text: &[u8]) -> Result<i32, NumberFault> {
    const FURTHEST: u128 = 1 << 31;
    if text.len() > 38 {
        return Err(NumberFault::Form);
    }
    let (negative, text) = split_sign(text);
    let (whole, text) = split_digits(text);
    let (fraction, text) = match text {
        [b'.', rest @ ..] => split_digits(rest),
        _ => (&[][..], text),
    };
    if whole.len() + fraction.len() == 0 {
        return Err(NumberFault::Form);
    }
    let exponent = match text {
        [] => 0,
        [b'e' | b'E', rest @ ..] => {
            let (below, rest) = split_sign(rest);
            let (digits, end) = split_digits(rest);
            if !(1..=3).contains(&digits.len()) || !end.is_empty() {
                return Err(NumberFault::Form);
            }
            let exponent = number_of(digits) as i32;
            if below {
                -exponent
            } else {
                exponent
            }
        }
        _ => return Err(NumberFault::Form),
    };
    let mut value = fraction.iter().fold(number_of(whole), |value, digit| {
        value * 10 + u128::from(digit - b'0')
    });
    let mut places = 7 + exponent - fraction.len() as i32;
    while places > 0 && value > 0 {
        if value > FURTHEST {
            return Err(NumberFault::Big);
        }
        value *= 10;
        places -= 1;
    }
    if places < 0 {
        while places < -1 && value > 0 {
            value /= 10;
            places += 1;
        }
        value = (value + 5) / 10;
    }
    match (negative, value) {
        (true, ..=FURTHEST) => Ok((value as i64).wrapping_neg() as i32),
        (false, ..FURTHEST) => Ok(value as i32),
        _ => Err(NumberFault::Big),
    }
}

fn print_number(into: &mut Vec<u8>, number: i64) {
    let mut digits = [0; 20];
    let mut at = digits.len();
    let mut rest = number.unsigned_abs();
    loop {
        at -= 1;
        digits[at] = b'0' + (rest % 10) as u8;
        rest /= 10;
        if rest == 0 {
            break;
        }
    }
    if number < 0 {
        at -= 1;
        digits[at] = b'-';
    }
    into.extend_from_slice(&digits[at..]);
}

fn print_fixed(into: &mut Vec<u8>, value: i32) {
    const DEGREE: u32 = 10_000_000;
    let magnitude = value.unsigned_abs();
    if value < 0 {
        into.push(b'-');
    }
    print_number(into, i64::from(magnitude / DEGREE));
    let mut rest = magnitude % DEGREE;
    if rest > 0 {
        into.push(b'.');
    }
    let mut unit = DEGREE / 10;
    while rest > 0 {
        into.push(b'0' + (rest / unit) as u8);
        rest %= unit;
        unit /= 10;
    }
}

// `POINT (X Y)`
fn read_point(text: &[u8]) -> Option<Point> {
    let letters = text.iter().position(|byte| !byte.is_ascii_alphabetic())?;
    let (word, rest) = text.split_at(letters);
    if !word.eq_ignore_ascii_case(b"POINT") {
        return None;
    }
    let rest = past_blanks(rest).strip_prefix(b"(")?;
    let (x, rest) = read_coordinate(past_blanks(rest))?;
    let spaced = past_blanks(rest);
    if spaced.len() == rest.len() {
        return None;
    }
    let (y, rest) = read_coordinate(spaced)?;
    let point = Point { x, y };
    (past_blanks(rest) == b")" && point.is_in_world()).then_some(point)
}

fn read_coordinate(text: &[u8]) -> Option<(i32, &[u8])> {
    let is_part = |byte: &u8| byte.is_ascii_digit() || b"+-.eE".contains(byte);
    let count = text
        .iter()
        .position(|byte| !is_part(byte))
        .unwrap_or(text.len());
    let (number, rest) = text.split_at(count);
    Some((read_fixed(number).ok()?, rest))
}

// ---- Instants, in milliseconds since 1970-01-01T00:00:00Z

const DAY_MS: i64 = 86_400_000;
const FIRST_MS: i64 = -62_167_219_200_000;
const LAST_MS: i64 = 253_402_300_799_999;

fn day_of(year: i64, month: i64, day: i64) -> i64 {
    let year = if month <= 2 { year - 1 } else { year };
    let era = year.div_euclid(400);
    let of_era = year.rem_euclid(400);
    let of_year = (153 * ((month + 9) % 12) + 2) / 5 + day - 1;
    era * 146_097 + of_era * 365 + of_era / 4 - of_era / 100 + of_year - 719_468
}

fn date_of(day: i64) -> (i64, i64, i64) {
    let since = day + 719_468;
    let era = since.div_euclid(146_097);
    let of_era = since.rem_euclid(146_097);
    let year = (of_era - of_era / 1_460 + of_era / 36_524 - of_era / 146_096) / 365;
    let of_year = of_era - (365 * year + year / 4 - year / 100);
    let month = (5 * of_year + 2) / 153;
    let day = of_year - (153 * month + 2) / 5 + 1;
    let month = if month < 10 { month + 3 } else { month - 9 };
    let year = era * 400 + year;
    (if month <= 2 { year + 1 } else { year }, month, day)
}

fn days_in(year: i64, month: i64) -> i64 {
    match month {
        4 | 6 | 9 | 11 => 30,
        2 if year % 4 == 0 && (year % 100 != 0 || year % 400 == 0) => 29,
        2 => 28,
        _ => 31,
    }
}

fn read_digits(text: &[u8]) -> Option<i64> {
    text.iter().try_fold(0, |number, byte| {
        byte.is_ascii_digit()
            .then(|| number * 10 + i64::from(byte - b'0'))
    })
}

fn read_instant(text: &[u8]) -> Option<i64> {
    if text.len() < 10 || text[4] != b'-' || text[7] != b'-' {
        return None;
    }
    let (year, month, day) = (
        read_digits(&text[..4])?,
        read_digits(&text[5..7])?,
        read_digits(&text[8..10])?,
    );
    if !(1..=12).contains(&month) || !(1..=days_in(year, month)).contains(&day) {
        return None;
    }
    let ms = day_of(year, month, day) * DAY_MS + read_time(&text[10..])?;
    (FIRST_MS..=LAST_MS).contains(&ms).then_some(ms)
}

fn read_time(text: &[u8]) -> Option<i64> {
    let Some((mark, rest)) = text.split_first() else {
        return Some(0);
    };
    if *mark != b'T' || rest.len() < 5 {
        return None;
    }
    let (clock, rest) = rest.split_at(5);
    let ms = read_clock(clock)?;
    match rest {
        [b':', rest @ ..] if rest.len() >= 2 => {
            let seconds = read_digits(&rest[..2]).filter(|seconds| *seconds < 60)?;
            Some(ms + seconds * 1_000 + read_fraction(&rest[2..])?)
        }
        _ => Some(ms + read_zone(rest)?),
    }
}

fn read_clock(text: &[u8]) -> Option<i64> {
    if text.len() != 5 || text[2] != b':' {
        return None;
    }
    let (hours, minutes) = (read_digits(&text[..2])?, read_digits(&text[3..])?);
    (hours < 24 && minutes < 60).then_some((hours * 60 + minutes) * 60_000)
}

fn read_fraction(text: &[u8]) -> Option<i64> {
    let [b'.', rest @ ..] = text else {
        return read_zone(text);
    };
    let (digits, zone) = split_digits(rest);
    if !(1..=9).contains(&digits.len()) {
        return None;
    }
    let digit = |place: usize| digits.get(place).map_or(0, |digit| i64::from(digit - b'0'));
    Some(digit(0) * 100 + digit(1) * 10 + digit(2) + read_zone(zone)?)
}

fn read_zone(text: &[u8]) -> Option<i64> {
    match text {
        [] | [b'Z'] => Some(0),
        [b'+', rest @ ..] => Some(-read_clock(rest)?),
        [b'-', rest @ ..] => read_clock(rest),
        _ => None,
    }
}

fn print_instant(into: &mut Vec<u8>, ms: i64) {
    let (year, month, day) = date_of(ms.div_euclid(DAY_MS));
    let ms = ms.rem_euclid(DAY_MS);
    let mut text = *b"0000-00-00T00:00:00.000Z";
    let mut put = |places: std::ops::Range<usize>, mut number: i64| {
        for place in places.rev() {
            text[place] = b'0' + (number % 10) as u8;
            number /= 10;
        }
    };
    put(0..4, year);
    put(5..7, month);
    put(8..10, day);
    put(11..13, ms / 3_600_000);
    put(14..16, ms / 60_000 % 60);
    put(17..19, ms / 1_000 % 60);
    put(20..23, ms % 1_000);
    into.extend_from_slice(&text);
}

// Bins are weeks since then, with offsets in seconds.
const WEEK_MS: i64 = 7 * DAY_MS;
const WEEK_SECONDS: u64 = 604_800;
const LAST_BIN: i64 = 32_767;

fn offset_in(number: i64, ms: i64) -> u64 {
    ((ms - number * WEEK_MS) / 1_000) as u64
}

fn bin_of(ms: i64) -> Option<(u16, u64)> {
    let number = ms.div_euclid(WEEK_MS);
    (0..=LAST_BIN)
        .contains(&number)
        .then(|| (number as u16, offset_in(number, ms)))
}

// ---- Cells and codes

const Z2_BITS: u32 = 31;
const Z3_BITS: u32 = 21;

fn cell(place: u64, span: u64, bits: u32) -> u32 {
    let cells = 1u64 << bits;
    (place * cells / span).min(cells - 1) as u32
}

// The cell of a coordinate along the world, which ends `half` below and above 0.
fn cell_along(value: i32, half: i64, bits: u32) -> u32 {
    let span = 2 * half;
    cell(
        (i64::from(value) + half).clamp(0, span) as u64,
        span as u64,
        bits,
    )
}

fn cells_of(point: Point, bits: u32) -> (u32, u32) {
    (
        cell_along(point.x, 1_800_000_000, bits),
        cell_along(point.y, 900_000_000, bits),
    )
}

fn spread_by_two(x: u32) -> u64 {
    let x = u64::from(x);
    let x = (x | x << 16) & 0x0000_FFFF_0000_FFFF;
    let x = (x | x << 8) & 0x00FF_00FF_00FF_00FF;
    let x = (x | x << 4) & 0x0F0F_0F0F_0F0F_0F0F;
    let x = (x | x << 2) & 0x3333_3333_3333_3333;
    (x | x << 1) & 0x5555_5555_5555_5555
}

fn spread_by_three(x: u32) -> u64 {
    let x = u64::from(x);
    let x = (x | x << 32) & 0xFFFF_0000_0000_FFFF;
    let x = (x | x << 16) & 0x00FF_0000_FF00_00FF;
    let x = (x | x << 8) & 0xF00F_00F0_0F00_F00F;
    let x = (x | x << 4) & 0x30C3_0C30_C30C_30C3;
    (x | x << 2) & 0x9249_2492_4924_9249
}

fn shard_of(id: &[u8], shards: u8) -> u8 {
    let hash = id.iter().fold(2_166_136_261u32, |hash, byte| {
        (hash ^ u32::from(*byte)).wrapping_mul(16_777_619)
    });
    (hash % u32::from(shards)) as u8
}

// ---- Decomposition of windows into runs of Z codes

#[derive(Clone, Copy, PartialEq)]
struct Cell {
    x: u32,
    y: u32,
    t: u32,
}

#[derive(Clone, Copy, PartialEq)]
struct Window {
    low: Cell,
    high: Cell,
}

#[derive(Clone, Copy)]
struct Node {
    level: u32,
    first: u64,
    cell: Cell,
}

// The tree of the Z code of D dimensions with B bits each.
struct Tree<const D: u32, const B: u32>;

impl<const D: u32, const B: u32> Tree<D, B> {
    fn child(node: &Node, q: u32) -> Node {
        Node {
            level: node.level + 1,
            first: node.first + (u64::from(q) << (D * (B - node.level - 1))),
            cell: Cell {
                x: 2 * node.cell.x + q % 2,
                y: 2 * node.cell.y + q / 2 % 2,
                t: 2 * node.cell.t + q / 4,
            },
        }
    }

    fn last(node: &Node) -> u64 {
        node.first + ((1u64 << (D * (B - node.level))) - 1)
    }

    fn reach(node: &Node) -> Window {
        let below = B - node.level;
        let side = (1u32 << below) - 1;
        let low = Cell {
            x: node.cell.x << below,
            y: node.cell.y << below,
            t: node.cell.t << below,
        };
        Window {
            low,
            high: Cell {
                x: low.x + side,
                y: low.y + side,
                t: low.t + side,
            },
        }
    }

    fn overlaps(reach: &Window, window: &Window) -> bool {
        reach.low.x <= window.high.x
            && window.low.x <= reach.high.x
            && reach.low.y <= window.high.y
            && window.low.y <= reach.high.y
            && (D != 3 || reach.low.t <= window.high.t && window.low.t <= reach.high.t)
    }

    fn is_within(reach: &Window, window: &Window) -> bool {
        window.low.x <= reach.low.x
            && reach.high.x <= window.high.x
            && window.low.y <= reach.low.y
            && reach.high.y <= window.high.y
            && (D != 3 || window.low.t <= reach.low.t && reach.high.t <= window.high.t)
    }

    // The runs of the deepest level that has at most `target` of them, and no level before it too many.
    fn split(windows: &[Window], target: usize) -> Vec<(u64, u64)> {
        let mut now = Front::default();
        let mut next = Front::default();
        now.add::<D, B>(
            Node {
                level: 0,
                first: 0,
                cell: Cell { x: 0, y: 0, t: 0 },
            },
            windows,
            u64::MAX,
        );
        for _ in 0..B {
            if now.partial == 0 {
                break;
            }
            next.clear();
            for piece in &now.pieces {
                match *piece {
                    Piece::Codes(low, high) => next.settle(low, high),
                    Piece::Partial(node, near) => {
                        for q in 0..1 << D {
                            next.add::<D, B>(Self::child(&node, q), windows, near);
                        }
                    }
                }
                if next.runs > target || next.partial > 4 * target {
                    return now.into_runs::<D, B>();
                }
            }
            std::mem::swap(&mut now, &mut next);
        }
        now.into_runs::<D, B>()
    }
}

#[derive(Clone, Copy)]
enum Piece {
    Codes(u64, u64),
    // A node that is inside no window, and the windows that it overlaps, as bits.
    Partial(Node, u64),
}

// The pieces of a level while they are made, and how many runs and partial nodes they have.
#[derive(Default)]
struct Front {
    pieces: Vec<Piece>,
    runs: usize,
    partial: usize,
    end: Option<u64>,
}

impl Front {
    fn clear(&mut self) {
        self.pieces.clear();
        (self.runs, self.partial, self.end) = (0, 0, None);
    }

    fn begin(&mut self, low: u64, high: u64) {
        if self.end != Some(low) {
            self.runs += 1;
        }
        self.end = Some(high + 1);
    }

    fn settle(&mut self, low: u64, high: u64) {
        self.begin(low, high);
        match self.pieces.last_mut() {
            Some(Piece::Codes(_, end)) if *end + 1 == low => *end = high,
            _ => self.pieces.push(Piece::Codes(low, high)),
        }
    }

    fn add<const D: u32, const B: u32>(&mut self, node: Node, windows: &[Window], seen: u64) {
        let reach = Tree::<D, B>::reach(&node);
        let last = Tree::<D, B>::last(&node);
        let mut left = seen;
        let mut near = 0;
        while left != 0 {
            let at = left.trailing_zeros();
            let Some(window) = windows.get(at as usize) else {
                break;
            };
            left &= left - 1;
            if Tree::<D, B>::overlaps(&reach, window) {
                if Tree::<D, B>::is_within(&reach, window) {
                    return self.settle(node.first, last);
                }
                near |= 1 << at;
            }
        }
        if near != 0 {
            self.begin(node.first, last);
            self.partial += 1;
            self.pieces.push(Piece::Partial(node, near));
        }
    }

    fn into_runs<const D: u32, const B: u32>(self) -> Vec<(u64, u64)> {
        let mut runs: Vec<(u64, u64)> = Vec::with_capacity(self.runs);
        for piece in self.pieces {
            let (low, high) = match piece {
                Piece::Codes(low, high) => (low, high),
                Piece::Partial(node, _) => (node.first, Tree::<D, B>::last(&node)),
            };
            match runs.last_mut() {
                Some(run) if run.1 + 1 == low => run.1 = high,
                _ => runs.push((low, high)),
            }
        }
        runs
    }
}

// ---- Feature types

#[derive(Clone, Copy, PartialEq)]
enum Kind {
    Text,
    Integer,
    Long,
    Boolean,
    Date,
    Point,
}

struct Attribute {
    name: Vec<u8>,
    kind: Kind,
    indexed: bool,
    high: bool,
}

#[derive(Clone, Copy, PartialEq)]
enum Index {
    Id,
    Z2,
    Z3,
    Value(usize),
}

struct FeatureType {
    name: Vec<u8>,
    number: u16,
    attributes: Vec<Attribute>,
    geometry: Option<usize>,
    date: Option<usize>,
    shards: u8,
    indexes: Vec<Index>,
}

fn is_name(text: &[u8]) -> bool {
    let begins = |byte: &u8| byte.is_ascii_alphabetic() || *byte == b'_';
    text.len() <= 64 && text.first().is_some_and(begins) && text.iter().all(is_word_byte)
}

fn is_word_byte(byte: &u8) -> bool {
    byte.is_ascii_alphanumeric() || *byte == b'_'
}

fn read_attribute(text: &[u8], starred: &mut bool) -> Option<Attribute> {
    let (star, text) = match text {
        [b'*', rest @ ..] => (true, rest),
        _ => (false, text),
    };
    let mut parts = text.split(|byte| *byte == b':');
    let name = parts.next().filter(|name| is_name(name))?;
    let kind = match parts.next()? {
        b"String" => Kind::Text,
        b"Integer" => Kind::Integer,
        b"Long" => Kind::Long,
        b"Boolean" => Kind::Boolean,
        b"Date" => Kind::Date,
        b"Point" => Kind::Point,
        _ => return None,
    };
    let mut attribute = Attribute {
        name: name.to_vec(),
        kind,
        indexed: false,
        high: false,
    };
    for option in parts {
        match option {
            b"index=true" | b"index=full" => attribute.indexed = kind != Kind::Point,
            b"index=false" | b"cardinality=low" => {}
            b"cardinality=high" => attribute.high = true,
            b"srid=4326" if kind == Kind::Point => {}
            _ => return None,
        }
    }
    *starred = star;
    (!star || kind == Kind::Point).then_some(attribute)
}

fn read_type(name: &[u8], number: u16, text: &[u8]) -> Option<FeatureType> {
    let (attributes, shards) = match text.iter().position(|byte| *byte == b';') {
        Some(at) => (
            &text[..at],
            parse(text[at + 1..].strip_prefix(b"geomesa.z.splits=")?)?,
        ),
        None => (text, 4),
    };
    if !(1..=127).contains(&shards) {
        return None;
    }
    let mut of = FeatureType {
        name: name.to_vec(),
        number,
        attributes: Vec::new(),
        geometry: None,
        date: None,
        shards,
        indexes: vec![Index::Id],
    };
    let mut star_at = None;
    for (place, part) in attributes.split(|byte| *byte == b',').enumerate() {
        let mut starred = false;
        of.attributes
            .push(read_attribute(part.trim_ascii(), &mut starred)?);
        if starred && star_at.replace(place).is_some() {
            return None;
        }
    }
    let first = |kind: Kind| {
        of.attributes
            .iter()
            .position(|attribute| attribute.kind == kind)
    };
    let geometry = star_at.or_else(|| first(Kind::Point));
    (of.geometry, of.date) = (geometry, first(Kind::Date));
    if of.geometry.is_some() {
        of.indexes.push(Index::Z2);
    }
    if of.geometry.is_some() && of.date.is_some() {
        of.indexes.push(Index::Z3);
    }
    for (place, attribute) in of.attributes.iter().enumerate() {
        if attribute.indexed {
            of.indexes.push(Index::Value(place));
        }
    }
    Some(of)
}

impl FeatureType {
    fn attribute_named(&self, name: &[u8]) -> Option<usize> {
        self.attributes
            .iter()
            .position(|attribute| attribute.name == name)
    }

    // What the keys of an index begin with.
    fn put_prefix(&self, index: Index, key: &mut Vec<u8>) {
        key.extend_from_slice(&self.number.to_be_bytes());
        match index {
            Index::Id => key.push(0),
            Index::Z2 => key.push(1),
            Index::Z3 => key.push(2),
            Index::Value(place) => {
                key.push(5);
                key.extend_from_slice(&(place as u16).to_be_bytes());
            }
        }
    }
}

// ---- Values and features

#[derive(Clone, Copy)]
enum Value<'a> {
    Null,
    Text(&'a [u8]),
    Integer(i32),
    Long(i64),
    Boolean(bool),
    Date(i64),
    Point(Point),
}

struct Feature<'a> {
    id: &'a [u8],
    values: Vec<Value<'a>>,
}

fn is_identifier(text: &[u8]) -> bool {
    (1..=128).contains(&text.len()) && text.iter().all(|byte| *byte >= 32 && *byte != 127)
}

fn parse<T: std::str::FromStr>(text: &[u8]) -> Option<T> {
    std::str::from_utf8(text).ok()?.parse().ok()
}

fn read_value(kind: Kind, field: &[u8]) -> Option<Value<'_>> {
    if field.is_empty() {
        return Some(Value::Null);
    }
    match kind {
        Kind::Text => (!field.contains(&0)).then_some(Value::Text(field)),
        Kind::Integer => parse(field).map(Value::Integer),
        Kind::Long => parse(field).map(Value::Long),
        Kind::Boolean if field.eq_ignore_ascii_case(b"true") => Some(Value::Boolean(true)),
        Kind::Boolean if field.eq_ignore_ascii_case(b"false") => Some(Value::Boolean(false)),
        Kind::Boolean => None,
        Kind::Date => read_instant(field).map(Value::Date),
        Kind::Point => read_point(field).map(Value::Point),
    }
}

// The feature of a row without quotes.
fn read_feature<'a>(of: &FeatureType, row: &'a [u8]) -> Result<Feature<'a>, Refusal> {
    if row.iter().any(|byte| *byte == b'"' || *byte == b'\r') {
        return Err(FIELD_COUNT);
    }
    let mut fields = row.split(|byte| *byte == b',');
    let id = fields.next().unwrap_or_default();
    let mut values = Vec::with_capacity(of.attributes.len());
    let mut fault = None;
    for attribute in &of.attributes {
        let field = fields.next().ok_or(FIELD_COUNT)?;
        match read_value(attribute.kind, field) {
            Some(value) => values.push(value),
            None if attribute.kind != Kind::Point => fault = Some(UNREADABLE),
            None => fault = fault.or(Some(GEOMETRY)),
        }
    }
    if fields.next().is_some() {
        return Err(FIELD_COUNT);
    }
    if let Some(fault) = fault {
        return Err(fault);
    }
    if let Some(Value::Date(ms)) = of.date.map(|place| values[place]) {
        if of.indexes.contains(&Index::Z3) && bin_of(ms).is_none() {
            return Err(NO_BIN);
        }
    }
    if !is_identifier(id) {
        return Err(IDENTIFIER);
    }
    Ok(Feature { id, values })
}

// The lexicoded forms of values: bytes in the order of the values.
fn integer_form(number: i32) -> [u8; 4] {
    (number as u32 ^ 1 << 31).to_be_bytes()
}

fn long_form(number: i64) -> [u8; 8] {
    (number as u64 ^ 1 << 63).to_be_bytes()
}

fn take<'a>(bytes: &mut &'a [u8], count: usize) -> &'a [u8] {
    let (front, rest) = bytes.split_at(count);
    *bytes = rest;
    front
}

fn take_four(bytes: &mut &[u8]) -> [u8; 4] {
    take(bytes, 4).try_into().unwrap()
}

fn take_eight(bytes: &mut &[u8]) -> [u8; 8] {
    take(bytes, 8).try_into().unwrap()
}

// The identifier at the front of a feature's bytes, and the bytes of its values.
fn split_id(bytes: &[u8]) -> (&[u8], &[u8]) {
    let length = usize::from(u16::from_be_bytes([bytes[0], bytes[1]]));
    bytes[2..].split_at(length)
}

fn take_value<'a>(kind: Kind, bytes: &mut &'a [u8]) -> Value<'a> {
    if take(bytes, 1) == [0] {
        return Value::Null;
    }
    match kind {
        Kind::Text => {
            let length = u32::from_be_bytes(take_four(bytes)) as usize;
            Value::Text(take(bytes, length))
        }
        Kind::Integer => Value::Integer(i32::from_be_bytes(take_four(bytes))),
        Kind::Long => Value::Long(i64::from_be_bytes(take_eight(bytes))),
        Kind::Boolean => Value::Boolean(take(bytes, 1) == [1]),
        Kind::Date => Value::Date(i64::from_be_bytes(take_eight(bytes))),
        Kind::Point => {
            take(bytes, 1);
            Value::Point(Point {
                x: i32::from_be_bytes(take_four(bytes)),
                y: i32::from_be_bytes(take_four(bytes)),
            })
        }
    }
}

// The value of an attribute in the bytes of a feature's values.
fn value_at<'a>(of: &FeatureType, place: usize, mut bytes: &'a [u8]) -> Value<'a> {
    for attribute in &of.attributes[..place] {
        take_value(attribute.kind, &mut bytes);
    }
    take_value(of.attributes[place].kind, &mut bytes)
}

impl<'a> Feature<'a> {
    fn from_bytes(of: &FeatureType, bytes: &'a [u8]) -> Feature<'a> {
        let (id, mut rest) = split_id(bytes);
        let values = of
            .attributes
            .iter()
            .map(|attribute| take_value(attribute.kind, &mut rest))
            .collect();
        Feature { id, values }
    }

    fn to_bytes(&self) -> Vec<u8> {
        let mut bytes = Vec::with_capacity(64 + self.id.len());
        bytes.extend_from_slice(&(self.id.len() as u16).to_be_bytes());
        bytes.extend_from_slice(self.id);
        for value in &self.values {
            bytes.push(u8::from(!matches!(value, Value::Null)));
            match *value {
                Value::Null => {}
                Value::Text(text) => {
                    bytes.extend_from_slice(&(text.len() as u32).to_be_bytes());
                    bytes.extend_from_slice(text);
                }
                Value::Integer(number) => bytes.extend_from_slice(&number.to_be_bytes()),
                Value::Long(number) | Value::Date(number) => {
                    bytes.extend_from_slice(&number.to_be_bytes())
                }
                Value::Boolean(truth) => bytes.push(u8::from(truth)),
                Value::Point(point) => {
                    bytes.push(1);
                    bytes.extend_from_slice(&point.x.to_be_bytes());
                    bytes.extend_from_slice(&point.y.to_be_bytes());
                }
            }
        }
        bytes
    }

    fn point(&self, of: &FeatureType) -> Option<Point> {
        match of.geometry.map(|place| self.values[place]) {
            Some(Value::Point(point)) => Some(point),
            _ => None,
        }
    }

    fn bin(&self, of: &FeatureType) -> Option<(u16, u64)> {
        match of.date.map(|place| self.values[place]) {
            Some(Value::Date(ms)) => bin_of(ms),
            _ => None,
        }
    }

    // The key in an index, where no value that it needs is null.
    fn key(&self, of: &FeatureType, index: Index) -> Option<Vec<u8>> {
        let mut key = Vec::with_capacity(self.id.len() + 16);
        of.put_prefix(index, &mut key);
        match index {
            Index::Id => {}
            Index::Z2 => {
                let (x, y) = cells_of(self.point(of)?, Z2_BITS);
                key.push(shard_of(self.id, of.shards));
                key.extend_from_slice(&(spread_by_two(x) | spread_by_two(y) << 1).to_be_bytes());
            }
            Index::Z3 => {
                let (x, y) = cells_of(self.point(of)?, Z3_BITS);
                let (number, offset) = self.bin(of)?;
                let t = cell(offset, WEEK_SECONDS, Z3_BITS);
                let code = spread_by_three(x) | spread_by_three(y) << 1 | spread_by_three(t) << 2;
                key.push(shard_of(self.id, of.shards));
                key.extend_from_slice(&number.to_be_bytes());
                key.extend_from_slice(&code.to_be_bytes());
            }
            Index::Value(place) => match self.values[place] {
                Value::Null | Value::Point(_) => return None,
                Value::Text(text) => {
                    key.extend_from_slice(text);
                    key.push(0);
                }
                Value::Integer(number) => key.extend_from_slice(&integer_form(number)),
                Value::Long(number) | Value::Date(number) => {
                    key.extend_from_slice(&long_form(number))
                }
                Value::Boolean(truth) => key.push(u8::from(truth)),
            },
        }
        key.extend_from_slice(self.id);
        Some(key)
    }

    fn keys(&self, of: &FeatureType) -> Vec<Vec<u8>> {
        of.indexes
            .iter()
            .filter_map(|index| self.key(of, *index))
            .collect()
    }
}

fn print_row(into: &mut Vec<u8>, of: &FeatureType, id: &[u8], mut values: &[u8]) {
    into.extend_from_slice(id);
    for attribute in &of.attributes {
        into.push(b',');
        match take_value(attribute.kind, &mut values) {
            Value::Null => {}
            Value::Text(text) => into.extend_from_slice(text),
            Value::Integer(number) => print_number(into, i64::from(number)),
            Value::Long(number) => print_number(into, number),
            Value::Boolean(truth) => into.extend_from_slice(if truth { b"true" } else { b"false" }),
            Value::Date(ms) => print_instant(into, ms),
            Value::Point(point) => {
                into.extend_from_slice(b"POINT (");
                print_fixed(into, point.x);
                into.push(b' ');
                print_fixed(into, point.y);
                into.push(b')');
            }
        }
    }
    into.push(b'\n');
}

// ---- The table: rows in blocks, sorted by their keys

// A key that is lent, with its first 16 bytes as a number: where these differ, no more is compared.
#[derive(Clone, Copy)]
struct End<'a> {
    front: u128,
    bytes: &'a [u8],
}

impl<'a> End<'a> {
    fn of(bytes: &'a [u8]) -> End<'a> {
        let front = match bytes.first_chunk() {
            Some(front) => u128::from_be_bytes(*front),
            None => {
                let mut front = [0; 16];
                front[..bytes.len()].copy_from_slice(bytes);
                u128::from_be_bytes(front)
            }
        };
        End { front, bytes }
    }

    fn cmp(&self, other: &End) -> Ordering {
        self.front
            .cmp(&other.front)
            .then_with(|| self.bytes.cmp(other.bytes))
    }
}

struct Row {
    front: u128,
    key: Box<[u8]>,
    bytes: Box<[u8]>,
}

impl Row {
    fn end(&self) -> End<'_> {
        End {
            front: self.front,
            bytes: &self.key,
        }
    }

    fn is_before(&self, end: &End) -> bool {
        self.end().cmp(end).is_lt()
    }
}

// The front of the first key stands beside the rows.
struct Block {
    front: u128,
    rows: Vec<Row>,
}

impl Block {
    fn of(rows: Vec<Row>) -> Block {
        Block {
            front: rows[0].front,
            rows,
        }
    }

    fn begins_by(&self, end: &End) -> bool {
        self.front < end.front || self.front == end.front && self.rows[0].end().cmp(end).is_le()
    }
}

#[derive(Default)]
struct Table {
    blocks: Vec<Block>,
    count: usize,
}

impl Table {
    // Blocks of so many rows are cut in two.
    const MOST: usize = 256;

    // Where the row of a key stands or would stand.
    fn find(&self, end: &End) -> Result<(usize, usize), (usize, usize)> {
        let block = self
            .blocks
            .partition_point(|block| block.begins_by(end))
            .saturating_sub(1);
        let Some(found) = self.blocks.get(block) else {
            return Err((0, 0));
        };
        let row = found.rows.partition_point(|row| row.is_before(end));
        match found.rows.get(row) {
            Some(row_there) if *row_there.key == *end.bytes => Ok((block, row)),
            _ => Err((block, row)),
        }
    }

    fn get(&self, key: &[u8]) -> Option<&[u8]> {
        let (block, row) = self.find(&End::of(key)).ok()?;
        Some(&self.blocks[block].rows[row].bytes)
    }

    fn put(&mut self, key: Vec<u8>, bytes: &[u8]) {
        let end = End::of(&key);
        match self.find(&end) {
            Ok((block, row)) => self.blocks[block].rows[row].bytes = bytes.into(),
            Err((block, row)) => {
                let row_put = Row {
                    front: end.front,
                    key: key.into(),
                    bytes: bytes.into(),
                };
                self.insert(block, row, row_put);
            }
        }
    }

    fn insert(&mut self, mut block: usize, mut at: usize, row: Row) {
        self.count += 1;
        let last = self.blocks.len().saturating_sub(1);
        match self.blocks.get_mut(block) {
            None => return self.blocks.push(Block::of(vec![row])),
            Some(found) if found.rows.len() < Self::MOST => {}
            Some(found) if block == last && at == found.rows.len() => {
                return self.blocks.push(Block::of(vec![row]));
            }
            Some(found) => {
                let half = Self::MOST / 2;
                let later = Block::of(found.rows.split_off(half));
                self.blocks.insert(block + 1, later);
                if at > half {
                    (block, at) = (block + 1, at - half);
                }
            }
        }
        let found = &mut self.blocks[block];
        found.rows.insert(at, row);
        found.front = found.rows[0].front;
    }

    fn remove(&mut self, key: &[u8]) {
        if let Ok((block, row)) = self.find(&End::of(key)) {
            self.count -= 1;
            let found = &mut self.blocks[block];
            found.rows.remove(row);
            match found.rows.first() {
                Some(first) => found.front = first.front,
                None => drop(self.blocks.remove(block)),
            }
        }
    }

    fn cursor(&self) -> Cursor<'_> {
        Cursor {
            blocks: &self.blocks,
            block: 0,
            row: 0,
        }
    }
}

// Walks over spans of keys that rise: no row before its place is in a span to come.
struct Cursor<'a> {
    blocks: &'a [Block],
    block: usize,
    row: usize,
}

impl<'a> Cursor<'a> {
    fn current(&self) -> Option<&'a Row> {
        Some(&self.blocks.get(self.block)?.rows[self.row])
    }

    fn step_to(&mut self, row: usize) {
        self.row = row;
        if self.row == self.blocks[self.block].rows.len() {
            (self.block, self.row) = (self.block + 1, 0);
        }
    }

    fn seek(&mut self, low: &End) {
        let rows = &self.blocks[self.block].rows;
        if rows.last().is_some_and(|last| last.is_before(low)) {
            let rest = &self.blocks[self.block + 1..];
            self.block += rest.partition_point(|block| block.begins_by(low));
            self.row = 0;
        }
        let rows = &self.blocks[self.block].rows[self.row..];
        self.step_to(self.row + rows.partition_point(|row| row.is_before(low)));
    }

    // Hands out the bytes of the rows from `low` on that are before `high`, if that is given.
    fn scan(&mut self, low: &End, high: Option<&End>, visit: &mut impl FnMut(&'a [u8])) {
        let is_in = |row: &Row| high.is_none_or(|high| row.is_before(high));
        match self.current() {
            Some(row) if !is_in(row) => return,
            Some(row) if row.is_before(low) => self.seek(low),
            _ => {}
        }
        while let Some(row) = self.current().filter(|row| is_in(row)) {
            visit(&row.bytes);
            self.step_to(self.row + 1);
        }
    }
}

// ---- Filters: tests of which all are to hold

#[derive(Clone, Copy, PartialEq)]
enum Op {
    Equal,
    Less,
    AtMost,
    More,
    AtLeast,
}

enum Literal {
    Text(Vec<u8>),
    Number(i64),
    Truth(bool),
    Date(i64),
}

enum Test {
    Include,
    // In byte order, each once.
    Ids(Vec<Vec<u8>>),
    Compare(usize, Op, Literal),
    Between(usize, Literal, Literal),
    During(usize, i64, i64),
    Inside(usize, Area),
}

fn order_of(value: &Value, literal: &Literal) -> Option<Ordering> {
    match (value, literal) {
        (Value::Text(text), Literal::Text(other)) => Some((*text).cmp(other)),
        (Value::Integer(number), Literal::Number(other)) => Some(i64::from(*number).cmp(other)),
        (Value::Long(number), Literal::Number(other)) => Some(number.cmp(other)),
        (Value::Boolean(truth), Literal::Truth(other)) => Some(truth.cmp(other)),
        (Value::Date(ms), Literal::Date(other)) => Some(ms.cmp(other)),
        _ => None,
    }
}

fn compares(order: Ordering, op: Op) -> bool {
    match op {
        Op::Equal => order.is_eq(),
        Op::Less => order.is_lt(),
        Op::AtMost => order.is_le(),
        Op::More => order.is_gt(),
        Op::AtLeast => order.is_ge(),
    }
}

fn holds(tests: &[Test], of: &FeatureType, bytes: &[u8]) -> bool {
    let (id, values) = split_id(bytes);
    tests.iter().all(|test| match test {
        Test::Include => true,
        Test::Ids(ids) => ids
            .binary_search_by(|other| other.as_slice().cmp(id))
            .is_ok(),
        Test::Compare(place, op, literal) => order_of(&value_at(of, *place, values), literal)
            .is_some_and(|order| compares(order, *op)),
        Test::Between(place, low, high) => {
            let value = value_at(of, *place, values);
            order_of(&value, low).is_some_and(Ordering::is_ge)
                && order_of(&value, high).is_some_and(Ordering::is_le)
        }
        Test::During(place, low, high) => {
            matches!(value_at(of, *place, values), Value::Date(ms) if *low < ms && ms < *high)
        }
        Test::Inside(place, area) => {
            matches!(value_at(of, *place, values), Value::Point(point) if area.contains(point))
        }
    })
}

// ---- Filters read from text

enum Token<'a> {
    Word(&'a [u8]),
    Text(Vec<u8>),
    Number(&'a [u8]),
    Instant(i64),
    Symbol(&'a [u8]),
}

fn token_at(text: &[u8]) -> Option<(Token<'_>, &[u8])> {
    let until = |stop: &dyn Fn(&u8) -> bool| text.iter().position(stop).unwrap_or(text.len());
    match text {
        [first, ..] if first.is_ascii_alphabetic() || *first == b'_' => {
            let (word, rest) = text.split_at(until(&|byte| !is_word_byte(byte)));
            Some((Token::Word(word), rest))
        }
        [b'\'', rest @ ..] => text_at(rest),
        [b'0'..=b'9' | b'.' | b'+' | b'-', ..] => {
            let is_date = |text: &[u8]| {
                let mut places = text.iter().enumerate();
                places.all(|(place, byte)| {
                    if place == 4 || place == 7 {
                        *byte == b'-'
                    } else {
                        byte.is_ascii_digit()
                    }
                })
            };
            if text.get(..10).is_some_and(is_date) {
                let is_part = |byte: &u8| byte.is_ascii_digit() || b"+-.:TZ".contains(byte);
                let (front, rest) = text.split_at(until(&|byte| !is_part(byte)));
                return Some((Token::Instant(read_instant(front)?), rest));
            }
            let mut sign = true;
            let end = text.iter().position(|byte| {
                let goes_on =
                    is_word_byte(byte) || *byte == b'.' || sign && (*byte == b'+' || *byte == b'-');
                sign = byte.eq_ignore_ascii_case(&b'e');
                !goes_on
            });
            let (number, rest) = text.split_at(end.unwrap_or(text.len()));
            match read_fixed(number) {
                Err(NumberFault::Form) => None,
                _ => Some((Token::Number(number), rest)),
            }
        }
        [b'<' | b'>', b'=', ..] => Some((Token::Symbol(&text[..2]), &text[2..])),
        [b'=' | b'<' | b'>' | b'(' | b')' | b',' | b'/', ..] => {
            Some((Token::Symbol(&text[..1]), &text[1..]))
        }
        _ => None,
    }
}

// A text behind its first quote; two quotes stand for one.
fn text_at(mut rest: &[u8]) -> Option<(Token<'_>, &[u8])> {
    let mut text = Vec::new();
    loop {
        let count = rest.iter().position(|byte| *byte == b'\'')?;
        text.extend_from_slice(&rest[..count]);
        rest = &rest[count + 1..];
        match rest {
            [b'\'', more @ ..] => {
                text.push(b'\'');
                rest = more;
            }
            _ => return Some((Token::Text(text), rest)),
        }
    }
}

struct Reader<'a> {
    of: &'a FeatureType,
    tokens: std::iter::Peekable<std::vec::IntoIter<Token<'a>>>,
    unknown_name: bool,
    bad_literal: bool,
}

fn read_filter(of: &FeatureType, text: &[u8]) -> Result<Vec<Test>, Refusal> {
    let mut tokens = Vec::new();
    let mut rest = text;
    while !rest.is_empty() {
        let (token, behind) = token_at(rest).ok_or(SYNTAX)?;
        tokens.push(token);
        rest = past_blanks(behind);
    }
    let mut reader = Reader {
        of,
        tokens: tokens.into_iter().peekable(),
        unknown_name: false,
        bad_literal: false,
    };
    let mut tests = Vec::new();
    loop {
        reader.read_test(&mut tests).ok_or(SYNTAX)?;
        if reader.tokens.peek().is_none() {
            break;
        }
        reader.word(b"AND").ok_or(SYNTAX)?;
    }
    match (reader.unknown_name, reader.bad_literal) {
        (true, _) => Err(UNKNOWN_NAME),
        (false, true) => Err(LITERAL),
        _ => Ok(tests),
    }
}

impl<'a> Reader<'a> {
    fn word(&mut self, word: &[u8]) -> Option<()> {
        let is_word =
            |token: &Token| matches!(token, Token::Word(other) if other.eq_ignore_ascii_case(word));
        self.tokens.next_if(is_word).map(|_| ())
    }

    fn symbol(&mut self, symbol: &[u8]) -> Option<()> {
        self.tokens
            .next_if(|token| matches!(token, Token::Symbol(other) if *other == symbol))
            .map(|_| ())
    }

    fn text(&mut self) -> Option<Vec<u8>> {
        match self.tokens.next()? {
            Token::Text(text) => Some(text),
            _ => None,
        }
    }

    fn instant(&mut self) -> Option<i64> {
        match self.tokens.next()? {
            Token::Instant(ms) => Some(ms),
            _ => None,
        }
    }

    // A number; None in it where it is too big.
    fn number(&mut self) -> Option<Option<i32>> {
        match self.tokens.next()? {
            Token::Number(number) => Some(read_fixed(number).ok()),
            _ => None,
        }
    }

    // An attribute with its kind; None in it where there is none of this name.
    fn attribute(&mut self) -> Option<Option<(usize, Kind)>> {
        match self.tokens.next()? {
            Token::Word(name) => {
                let place = self.of.attribute_named(name);
                self.unknown_name |= place.is_none();
                Some(place.map(|place| (place, self.of.attributes[place].kind)))
            }
            _ => None,
        }
    }

    // A literal that goes with an attribute of the kind; None in it where it does not.
    fn literal(&mut self, kind: Kind) -> Option<Option<Literal>> {
        let literal = match (kind, self.tokens.next()?) {
            (Kind::Text, Token::Text(text)) => Some(Literal::Text(text)),
            (Kind::Date, Token::Text(text)) => read_instant(&text).map(Literal::Date),
            (Kind::Date, Token::Instant(ms)) => Some(Literal::Date(ms)),
            (Kind::Long, Token::Number(number)) => parse(number).map(Literal::Number),
            (Kind::Integer, Token::Number(number)) => {
                parse::<i32>(number).map(|number| Literal::Number(number.into()))
            }
            (_, Token::Word(word)) => match (
                word.eq_ignore_ascii_case(b"true"),
                word.eq_ignore_ascii_case(b"false"),
            ) {
                (false, false) => return None,
                (truth, _) => (kind == Kind::Boolean).then_some(Literal::Truth(truth)),
            },
            (_, Token::Symbol(_)) => return None,
            _ => None,
        };
        Some(literal)
    }

    fn push(&mut self, tests: &mut Vec<Test>, test: Option<Test>) {
        self.bad_literal |= test.is_none();
        tests.extend(test);
    }

    fn read_test(&mut self, tests: &mut Vec<Test>) -> Option<()> {
        if self.word(b"INCLUDE").is_some() {
            tests.push(Test::Include);
            return Some(());
        }
        if self.word(b"IN").is_some() {
            let mut ids = Vec::new();
            self.symbol(b"(")?;
            loop {
                ids.push(self.text()?);
                if self.symbol(b")").is_some() {
                    break;
                }
                self.symbol(b",")?;
            }
            ids.retain(|id| is_identifier(id));
            ids.sort_unstable();
            ids.dedup();
            tests.push(Test::Ids(ids));
            return Some(());
        }
        if self.word(b"BBOX").is_some() {
            let test = self.read_box()?;
            self.push(tests, test);
            return Some(());
        }
        let attribute = self.attribute()?;
        let (place, kind) = attribute.unwrap_or((0, Kind::Text));
        let test = self.read_asked(place, kind)?;
        if attribute.is_some() {
            self.push(tests, test);
        }
        Some(())
    }

    // `(name, x1, y1, x2, y2)`
    fn read_box(&mut self) -> Option<Option<Test>> {
        self.symbol(b"(")?;
        let attribute = self.attribute()?;
        let mut corners = [None; 4];
        for corner in &mut corners {
            self.symbol(b",")?;
            *corner = self.number()?;
        }
        self.symbol(b")")?;
        let [Some(low_x), Some(low_y), Some(high_x), Some(high_y)] = corners else {
            return Some(None);
        };
        let area = Area {
            low: Point { x: low_x, y: low_y },
            high: Point {
                x: high_x,
                y: high_y,
            },
        };
        let fits = area.low.is_in_world() && area.high.is_in_world() && !area.is_void();
        Some(match attribute {
            Some((place, Kind::Point)) if fits => Some(Test::Inside(place, area)),
            _ => None,
        })
    }

    // What is asked of an attribute behind its name.
    fn read_asked(&mut self, place: usize, kind: Kind) -> Option<Option<Test>> {
        let is_ordered = !matches!(kind, Kind::Boolean | Kind::Point);
        if self.word(b"BETWEEN").is_some() {
            let low = self.literal(kind)?;
            self.word(b"AND")?;
            let high = self.literal(kind)?;
            return Some(match (low, high) {
                (Some(low), Some(high)) if is_ordered => Some(Test::Between(place, low, high)),
                _ => None,
            });
        }
        if self.word(b"DURING").is_some() {
            let low = self.instant()?;
            self.symbol(b"/")?;
            let high = self.instant()?;
            return Some((kind == Kind::Date).then_some(Test::During(place, low, high)));
        }
        let op = match self.tokens.next()? {
            Token::Symbol(b"=") => Op::Equal,
            Token::Symbol(b"<") => Op::Less,
            Token::Symbol(b"<=") => Op::AtMost,
            Token::Symbol(b">") => Op::More,
            Token::Symbol(b">=") => Op::AtLeast,
            _ => return None,
        };
        let literal = self.literal(kind)?;
        let fits = is_ordered || op == Op::Equal;
        Some(
            literal
                .filter(|_| fits)
                .map(|literal| Test::Compare(place, op, literal)),
        )
    }
}

// ---- Bounds of a filter: where it can be true

enum Bound<T> {
    World,
    Nowhere,
    In(T),
}

impl<T> Bound<T> {
    fn is_world(&self) -> bool {
        matches!(self, Bound::World)
    }

    fn of(place: T, is_void: impl Fn(&T) -> bool) -> Bound<T> {
        if is_void(&place) {
            Bound::Nowhere
        } else {
            Bound::In(place)
        }
    }

    fn met(
        self,
        other: Bound<T>,
        met: impl Fn(&T, &T) -> T,
        is_void: impl Fn(&T) -> bool,
    ) -> Bound<T> {
        match (self, other) {
            (Bound::World, bound) | (bound, Bound::World) => bound,
            (Bound::In(one), Bound::In(other)) => Bound::of(met(&one, &other), is_void),
            _ => Bound::Nowhere,
        }
    }
}

// Closed, in milliseconds; without an end it goes on.
#[derive(Clone, Copy)]
struct Interval {
    low: Option<i64>,
    high: Option<i64>,
}

impl Interval {
    fn is_void(&self) -> bool {
        matches!((self.low, self.high), (Some(low), Some(high)) if high < low)
    }

    fn met(&self, other: &Interval) -> Interval {
        let high = match (self.high, other.high) {
            (Some(one), Some(other)) => Some(one.min(other)),
            (one, other) => one.or(other),
        };
        Interval {
            low: self.low.max(other.low),
            high,
        }
    }

    fn is_bounded(&self) -> bool {
        self.low.is_some() && self.high.is_some()
    }
}

// The low end is in it, the high end is not; without a high end it goes on.
#[derive(Clone)]
struct ByteRange {
    low: Vec<u8>,
    high: Option<Vec<u8>>,
}

impl ByteRange {
    fn is_void(&self) -> bool {
        self.high.as_ref().is_some_and(|high| *high <= self.low)
    }

    fn met(&self, other: &ByteRange) -> ByteRange {
        let high = match (&self.high, &other.high) {
            (Some(one), Some(other)) => Some(one.min(other).clone()),
            (one, other) => one.as_ref().or(other.as_ref()).cloned(),
        };
        ByteRange {
            low: self.low.clone().max(other.low.clone()),
            high,
        }
    }

    fn is_of_one_value(&self, kind: Kind) -> bool {
        let is_form = match kind {
            Kind::Text => {
                self.low.iter().position(|byte| *byte == 0) == self.low.len().checked_sub(1)
            }
            Kind::Integer => self.low.len() == 4,
            Kind::Long | Kind::Date => self.low.len() == 8,
            Kind::Boolean => self.low.len() == 1,
            Kind::Point => false,
        };
        is_form && !self.low.is_empty() && self.high == after(&self.low)
    }
}

// The least bytes above all that begin with these.
fn after(bytes: &[u8]) -> Option<Vec<u8>> {
    let last = bytes.iter().rposition(|byte| *byte != 0xFF)?;
    let mut end = bytes[..=last].to_vec();
    end[last] += 1;
    Some(end)
}

fn form_of(kind: Kind, literal: &Literal) -> Option<Vec<u8>> {
    match (kind, literal) {
        (Kind::Text, Literal::Text(text)) => {
            (!text.contains(&0)).then(|| [text, &b"\0"[..]].concat())
        }
        (Kind::Integer, Literal::Number(number)) => {
            Some(integer_form(i32::try_from(*number).ok()?).to_vec())
        }
        (_, Literal::Number(number) | Literal::Date(number)) => Some(long_form(*number).to_vec()),
        (_, Literal::Truth(truth)) => Some(vec![u8::from(*truth)]),
        _ => None,
    }
}

fn areas_of(of: &FeatureType, tests: &[Test]) -> Bound<Area> {
    tests.iter().fold(Bound::World, |held, test| match test {
        Test::Inside(place, area) if of.geometry == Some(*place) => {
            held.met(Bound::of(*area, Area::is_void), Area::met, Area::is_void)
        }
        _ => held,
    })
}

fn interval_of(test: &Test) -> Option<Interval> {
    let (low, high) = match test {
        Test::Compare(_, Op::Equal, Literal::Date(at)) => (Some(*at), Some(*at)),
        Test::Compare(_, Op::Less, Literal::Date(at)) => (None, Some(at - 1)),
        Test::Compare(_, Op::AtMost, Literal::Date(at)) => (None, Some(*at)),
        Test::Compare(_, Op::More, Literal::Date(at)) => (Some(at + 1), None),
        Test::Compare(_, Op::AtLeast, Literal::Date(at)) => (Some(*at), None),
        Test::Between(_, Literal::Date(low), Literal::Date(high)) => (Some(*low), Some(*high)),
        Test::During(_, low, high) => (Some(low + 1), Some(high - 1)),
        _ => return None,
    };
    Some(Interval { low, high })
}

fn intervals_of(of: &FeatureType, tests: &[Test]) -> Bound<Interval> {
    tests
        .iter()
        .fold(Bound::World, |held, test| match (test, interval_of(test)) {
            (
                Test::Compare(place, ..) | Test::Between(place, ..) | Test::During(place, ..),
                Some(interval),
            ) if of.date == Some(*place) => held.met(
                Bound::of(interval, Interval::is_void),
                Interval::met,
                Interval::is_void,
            ),
            _ => held,
        })
}

fn values_of(of: &FeatureType, attribute: usize, tests: &[Test]) -> Bound<ByteRange> {
    let kind = of.attributes[attribute].kind;
    let bound = |low: Vec<u8>, high: Option<Vec<u8>>| {
        Bound::of(ByteRange { low, high }, ByteRange::is_void)
    };
    tests.iter().fold(Bound::World, |held, test| {
        let found = match test {
            Test::Compare(place, op, literal) if *place == attribute => {
                match (op, form_of(kind, literal)) {
                    (Op::Equal, None) => Bound::Nowhere,
                    (_, None) => Bound::World,
                    (Op::Equal, Some(form)) => bound(form.clone(), after(&form)),
                    (Op::Less, Some(form)) => bound(Vec::new(), Some(form)),
                    (Op::AtMost, Some(form)) => bound(Vec::new(), after(&form)),
                    (Op::More, Some(form)) => {
                        after(&form).map_or(Bound::Nowhere, |low| bound(low, None))
                    }
                    (Op::AtLeast, Some(form)) => bound(form, None),
                }
            }
            Test::Between(place, low, high) if *place == attribute => {
                match (form_of(kind, low), form_of(kind, high)) {
                    (Some(low), Some(high)) => bound(low, after(&high)),
                    _ => Bound::World,
                }
            }
            Test::During(place, low, high) if *place == attribute => {
                bound(long_form(low + 1).to_vec(), Some(long_form(*high).to_vec()))
            }
            _ => Bound::World,
        };
        held.met(found, ByteRange::met, ByteRange::is_void)
    })
}

fn ids_of(tests: &[Test]) -> Option<Vec<Vec<u8>>> {
    tests.iter().fold(None, |held, test| match (held, test) {
        (None, Test::Ids(ids)) => Some(ids.clone()),
        (Some(mut held), Test::Ids(ids)) => {
            held.retain(|id| ids.binary_search(id).is_ok());
            Some(held)
        }
        (held, _) => held,
    })
}

// ---- Plans

// What it costs to look in an index, where it applies to the filter.
fn cost_of(of: &FeatureType, index: Index, tests: &[Test]) -> Option<u32> {
    match index {
        Index::Id => Some(if ids_of(tests).is_some() { 1 } else { 7 }),
        Index::Z2 => (!areas_of(of, tests).is_world()).then_some(5),
        Index::Z3 => {
            let bounded = match intervals_of(of, tests) {
                Bound::World => false,
                Bound::Nowhere => true,
                Bound::In(interval) => interval.is_bounded(),
            };
            (bounded && !areas_of(of, tests).is_world()).then_some(3)
        }
        Index::Value(place) => {
            let attribute = &of.attributes[place];
            let single = match values_of(of, place, tests) {
                Bound::World => return None,
                Bound::Nowhere => true,
                Bound::In(range) => range.is_of_one_value(attribute.kind),
            };
            Some(match (single, attribute.high) {
                (true, true) => 2,
                (true, false) => 4,
                (false, _) => 6,
            })
        }
    }
}

// The first of the indexes of least cost.
fn cheapest(of: &FeatureType, tests: &[Test]) -> Index {
    let costs = of
        .indexes
        .iter()
        .filter_map(|index| Some((*index, cost_of(of, *index, tests)?)));
    costs
        .min_by_key(|(_, cost)| *cost)
        .map_or(Index::Id, |(index, _)| index)
}

enum Ranges {
    All,
    Ids(Vec<Vec<u8>>),
    Codes(Vec<(u64, u64)>),
    InBins(Vec<(u16, u64, u64)>),
    Bins(u16, u16),
    Values(Bound<ByteRange>),
}

fn window_of(area: &Area, bits: u32, low_t: u32, high_t: u32) -> Window {
    let (low, high) = (cells_of(area.low, bits), cells_of(area.high, bits));
    Window {
        low: Cell {
            x: low.0,
            y: low.1,
            t: low_t,
        },
        high: Cell {
            x: high.0,
            y: high.1,
            t: high_t,
        },
    }
}

fn z3_ranges(area: &Area, interval: &Interval, target: usize) -> Ranges {
    let Interval {
        low: Some(low),
        high: Some(high),
    } = *interval
    else {
        return Ranges::InBins(Vec::new());
    };
    let first = low.div_euclid(WEEK_MS).clamp(0, LAST_BIN + 1);
    let last = high.div_euclid(WEEK_MS).clamp(-1, LAST_BIN);
    let count = (last - first + 1).max(0) as usize;
    if count > target {
        return Ranges::Bins(first as u16, last as u16);
    }
    let mut ranges = Vec::new();
    // The windows decomposed last, with their runs: most bins of a query have the same.
    let mut known: Vec<(Window, Vec<(u64, u64)>)> = Vec::new();
    for number in first..=last {
        let cell_at = |ms: i64| cell(offset_in(number, ms), WEEK_SECONDS, Z3_BITS);
        let low_t = cell_at(low.max(number * WEEK_MS));
        let high_t = cell_at(high.min((number + 1) * WEEK_MS - 1));
        let window = window_of(area, Z3_BITS, low_t, high_t);
        let place = known
            .iter()
            .position(|(other, _)| *other == window)
            .unwrap_or_else(|| {
                known.push((window, Tree::<3, Z3_BITS>::split(&[window], target / count)));
                known.len() - 1
            });
        ranges.extend(
            known[place]
                .1
                .iter()
                .map(|(low, high)| (number as u16, *low, *high)),
        );
    }
    Ranges::InBins(ranges)
}

fn ranges_of(of: &FeatureType, index: Index, tests: &[Test], target: usize) -> Ranges {
    match index {
        Index::Id => ids_of(tests).map_or(Ranges::All, Ranges::Ids),
        Index::Z2 => match areas_of(of, tests) {
            Bound::In(area) => {
                let window = window_of(&area, Z2_BITS, 0, 0);
                Ranges::Codes(Tree::<2, Z2_BITS>::split(&[window], target))
            }
            _ => Ranges::Codes(Vec::new()),
        },
        Index::Z3 => match (areas_of(of, tests), intervals_of(of, tests)) {
            (Bound::In(area), Bound::In(interval)) => z3_ranges(&area, &interval, target),
            _ => Ranges::InBins(Vec::new()),
        },
        Index::Value(place) => Ranges::Values(values_of(of, place, tests)),
    }
}

// The front of a key with a code or a bin in it: short enough that the number of its bytes tells all of it.
#[derive(Clone, Copy)]
struct KeyFront {
    bytes: [u8; 16],
    length: usize,
}

impl KeyFront {
    fn of(prefix: &[u8], shard: u8) -> KeyFront {
        let mut front = KeyFront {
            bytes: [0; 16],
            length: prefix.len() + 1,
        };
        front.bytes[..prefix.len()].copy_from_slice(prefix);
        front.bytes[prefix.len()] = shard;
        front
    }

    fn with<const N: usize>(mut self, more: [u8; N]) -> KeyFront {
        self.bytes[self.length..self.length + N].copy_from_slice(&more);
        self.length += N;
        self
    }

    fn end(&self) -> End<'_> {
        End {
            front: u128::from_be_bytes(self.bytes),
            bytes: &self.bytes[..self.length],
        }
    }
}

// Hands out the bytes of the rows whose keys are in the ranges, in all shards.
fn scan<'a>(
    table: &'a Table,
    of: &FeatureType,
    index: Index,
    ranges: &Ranges,
    visit: &mut impl FnMut(&'a [u8]),
) {
    let mut cursor = table.cursor();
    let mut prefix = Vec::new();
    of.put_prefix(index, &mut prefix);
    match ranges {
        Ranges::All => cursor.scan(
            &End::of(&prefix),
            after(&prefix).as_deref().map(End::of).as_ref(),
            visit,
        ),
        Ranges::Ids(ids) => {
            for id in ids {
                let low = [&prefix[..], id].concat();
                let high = [&low[..], b"\0"].concat();
                cursor.scan(&End::of(&low), Some(&End::of(&high)), visit);
            }
        }
        Ranges::Values(Bound::In(range)) => {
            let low = [&prefix[..], &range.low].concat();
            let high = match &range.high {
                Some(high) => Some([&prefix[..], high].concat()),
                None => after(&prefix),
            };
            cursor.scan(&End::of(&low), high.as_deref().map(End::of).as_ref(), visit);
        }
        Ranges::Values(_) => {}
        Ranges::Codes(runs) => {
            for shard in 0..of.shards {
                let front = KeyFront::of(&prefix, shard);
                for (low, high) in runs {
                    let low = front.with(low.to_be_bytes());
                    let high = front.with((high + 1).to_be_bytes());
                    cursor.scan(&low.end(), Some(&high.end()), visit);
                }
            }
        }
        Ranges::InBins(runs) => {
            for shard in 0..of.shards {
                let front = KeyFront::of(&prefix, shard);
                for (number, low, high) in runs {
                    let front = front.with(number.to_be_bytes());
                    let low = front.with(low.to_be_bytes());
                    let high = front.with((high + 1).to_be_bytes());
                    cursor.scan(&low.end(), Some(&high.end()), visit);
                }
            }
        }
        Ranges::Bins(first, last) => {
            for shard in 0..of.shards {
                let front = KeyFront::of(&prefix, shard);
                let low = front.with(first.to_be_bytes());
                let high = front.with((last + 1).to_be_bytes());
                cursor.scan(&low.end(), Some(&high.end()), visit);
            }
        }
    }
}

// ---- Commands

#[derive(Default)]
struct Store {
    types: Vec<FeatureType>,
    table: Table,
}

fn past_blanks(text: &[u8]) -> &[u8] {
    let count = text
        .iter()
        .position(|byte| *byte != b' ' && *byte != b'\t')
        .unwrap_or(text.len());
    &text[count..]
}

fn split_word(text: &[u8]) -> (&[u8], &[u8]) {
    let text = past_blanks(text);
    let count = text
        .iter()
        .position(|byte| *byte == b' ' || *byte == b'\t')
        .unwrap_or(text.len());
    (&text[..count], past_blanks(&text[count..]))
}

fn split_option<'a>(key: &[u8], text: &'a [u8]) -> (Option<&'a [u8]>, &'a [u8]) {
    let (word, rest) = split_word(text);
    match word.strip_prefix(key) {
        Some(value) => (Some(value), rest),
        None => (None, text),
    }
}

const ROW_LIMIT: usize = 2_000_000;

impl Store {
    fn serve(&mut self, line: &[u8], reply: &mut Vec<u8>) {
        if let Err(refusal) = self.execute(line, reply) {
            reply.clear();
            reply.extend_from_slice(b"error ");
            reply.extend_from_slice(refusal.as_bytes());
            reply.push(b'\n');
        }
    }

    fn execute(&mut self, line: &[u8], reply: &mut Vec<u8>) -> Result<(), Refusal> {
        if line.len() > 1 << 20 {
            return Err(TOO_LONG);
        }
        let line = line.strip_suffix(b"\r").unwrap_or(line);
        if matches!(past_blanks(line), [] | [b'#', ..]) {
            return Ok(());
        }
        if std::str::from_utf8(line).is_err() {
            return Err(NOT_UTF8);
        }
        let (verb, rest) = split_word(line);
        let (name, rest) = split_word(rest);
        match verb {
            b"create" => self.create(name, rest, reply),
            b"put" => self.put(name, rest, reply),
            b"delete" => self.delete(name, rest, reply),
            b"query" => self.ask(name, rest, reply, true),
            b"count" => self.ask(name, rest, reply, false),
            _ => Err(UNKNOWN_COMMAND),
        }
    }

    fn type_named(types: &[FeatureType], name: &[u8], rest: &[u8]) -> Result<usize, Refusal> {
        if !is_name(name) || rest.is_empty() {
            return Err(FORM);
        }
        types.iter().position(|of| of.name == name).ok_or(NO_TYPE)
    }

    fn create(&mut self, name: &[u8], text: &[u8], reply: &mut Vec<u8>) -> Result<(), Refusal> {
        match Self::type_named(&self.types, name, text) {
            Ok(_) => return Err(TYPE_EXISTS),
            Err(NO_TYPE) => {}
            Err(refusal) => return Err(refusal),
        }
        let of = read_type(name, self.types.len() as u16, text).ok_or(SPECIFICATION)?;
        if self.types.len() == 100 {
            return Err(LIMIT);
        }
        self.types.push(of);
        reply.extend_from_slice(b"ok create ");
        reply.extend_from_slice(name);
        reply.push(b'\n');
        Ok(())
    }

    fn put(&mut self, name: &[u8], row: &[u8], reply: &mut Vec<u8>) -> Result<(), Refusal> {
        let of = &self.types[Self::type_named(&self.types, name, row)?];
        let feature = read_feature(of, row)?;
        let keys = feature.keys(of);
        let old_keys = match self.table.get(&keys[0]) {
            Some(bytes) => Feature::from_bytes(of, bytes).keys(of),
            None => Vec::new(),
        };
        if self.table.count + keys.len() > ROW_LIMIT + old_keys.len() {
            return Err(LIMIT);
        }
        let replaced = !old_keys.is_empty();
        for key in old_keys.iter().filter(|key| !keys.contains(key)) {
            self.table.remove(key);
        }
        let bytes = feature.to_bytes();
        for key in keys {
            self.table.put(key, &bytes);
        }
        reply.extend_from_slice(b"ok put ");
        reply.extend_from_slice(feature.id);
        reply.extend_from_slice(if replaced { b" replaced\n" } else { b" new\n" });
        Ok(())
    }

    fn delete(&mut self, name: &[u8], id: &[u8], reply: &mut Vec<u8>) -> Result<(), Refusal> {
        let of = &self.types[Self::type_named(&self.types, name, id)?];
        if !is_identifier(id) {
            return Err(IDENTIFIER);
        }
        let key = Feature {
            id,
            values: Vec::new(),
        }
        .key(of, Index::Id)
        .unwrap_or_default();
        let bytes = self.table.get(&key).ok_or(NO_FEATURE)?;
        for key in Feature::from_bytes(of, bytes).keys(of) {
            self.table.remove(&key);
        }
        reply.extend_from_slice(b"ok delete ");
        reply.extend_from_slice(id);
        reply.push(b'\n');
        Ok(())
    }

    fn ask(
        &self,
        name: &[u8],
        rest: &[u8],
        reply: &mut Vec<u8>,
        with_rows: bool,
    ) -> Result<(), Refusal> {
        let (target, text) = split_option(b"target=", rest);
        let target = match target {
            Some(digits) if (1..=10).contains(&digits.len()) => read_digits(digits).ok_or(FORM)?,
            Some(_) => return Err(FORM),
            None => 2_000,
        };
        let of = &self.types[Self::type_named(&self.types, name, text)?];
        let tests = read_filter(of, text)?;
        let index = cheapest(of, &tests);
        if !(1..=10_000).contains(&target) {
            return Err(LIMIT);
        }
        let ranges = ranges_of(of, index, &tests, target as usize);
        let (mut matched, mut examined) = (0, 0);
        let mut found = Vec::new();
        scan(&self.table, of, index, &ranges, &mut |bytes| {
            examined += 1;
            if holds(&tests, of, bytes) {
                matched += 1;
                if with_rows {
                    found.push(split_id(bytes));
                }
            }
        });
        found.sort_unstable_by_key(|(id, _)| *id);
        reply.extend_from_slice(if with_rows {
            b"ok query "
        } else {
            b"ok count "
        });
        print_number(reply, matched);
        reply.extend_from_slice(b" of ");
        print_number(reply, examined);
        reply.push(b'\n');
        for (id, values) in found {
            print_row(reply, of, id, values);
        }
        Ok(())
    }
}

fn main() -> io::Result<()> {
    let mut input = BufReader::with_capacity(1 << 16, io::stdin().lock());
    let mut output = io::stdout().lock();
    let mut store = Store::default();
    let mut line = Vec::new();
    let mut reply = Vec::new();
    while input.read_until(b'\n', &mut line)? > 0 {
        store.serve(line.strip_suffix(b"\n").unwrap_or(&line), &mut reply);
        // As gm does, each reply is handed on as one piece before the next command.
        output.write_all(&reply)?;
        reply.clear();
        line.clear();
    }
    output.flush()
}
