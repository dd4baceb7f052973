//! The work of `mapchain` in plain Rust, by hand and for speed, without contracts and proofs: what benchmarks compare the program with.
//! It is no part of the program, and nothing is proved of it; `scripts/plain/compare.py` gives random files to both.
//!
//!     rustc --edition 2021 -O -C target-cpu=x86-64-v2 -C panic=abort -o plain scripts/plain/plain.rs
//!     ./plain build [--grid N] [--min-area A | --keep P/Q] [--min-ring-area B] [--exact] NAME=PATH ..
//!     ./plain simplify [--min-area A | --keep P/Q] [--min-ring-area B] FILE
//!     ./plain geo --object NAME FILE
//!     ./plain stat FILE
//!
//! For valid input standard output and standard error are those of `mapchain`. What is malformed is refused too, but by status 1 and any
//! line, and the order in which faults are looked for is its own. There is no `-o`.
#![forbid(unsafe_code)]

use std::borrow::Cow;
use std::collections::HashMap;
use std::hash::{BuildHasherDefault, Hasher};
use std::io::Write;
use std::process::ExitCode;

/// A position in units of 10^-9, or a cell of a grid.
type Position = (i64, i64);

type Fault = &'static str;
type Answer<T> = Result<T, Fault>;

const NONE: u32 = u32::MAX;
const MALFORMED: Fault = "malformed";
const POWERS: [u64; 10] = [1, 10, 100, 1000, 10000, 100000, 1000000, 10000000, 100000000, 1000000000];

// ---- Shapes

#[derive(Clone, Copy, PartialEq)]
enum Kind {
    Null,
    Point,
    MultiPoint,
    Line,
    MultiLine,
    Polygon,
    MultiPolygon,
    Collection,
}

/// A geometry; the numbers are ranges in the lists of a `Store`.
enum Shape {
    Null,
    Point(u32),
    MultiPoint(u32, u32),
    Line(u32),
    MultiLine(u32, u32),
    Polygon(u32, u32),
    MultiPolygon(u32, u32),
    Collection(Box<[Shape]>),
}

/// A feature; identifier and properties are spans of the input, and empty where there are none.
struct Feature<'a> {
    id: &'a [u8],
    properties: &'a [u8],
    shape: Shape,
}

struct Object<'a> {
    /// The name as a JSON text.
    name: Vec<u8>,
    is_collection: bool,
    features: Vec<Feature<'a>>,
}

#[derive(Clone, Copy, PartialEq)]
enum Cause {
    Kept,
    Collapsed,
    Outer,
    Small,
    /// A ring of a polygon whose outer ring is an empty array.
    Unread,
}

/// A line or ring: a range of `points`, and of `uses` once it is cut.
#[derive(Clone, Copy)]
struct Line {
    start: u32,
    end: u32,
    is_ring: bool,
    cause: Cause,
}

#[derive(Default)]
struct Store {
    singles: Vec<Position>,
    points: Vec<Position>,
    uses: Vec<i32>,
    lines: Vec<Line>,
    polygons: Vec<(u32, u32)>,
    rounded: u64,
    extra: u64,
    empty: u64,
}

fn short(n: usize) -> Answer<u32> {
    u32::try_from(n).ok().filter(|&n| n < 1 << 31).ok_or("too many positions")
}

// ---- Reading

/// A cursor over a JSON text. Behind the end stands a zero, which no token has.
struct Reader<'a> {
    bytes: &'a [u8],
    at: usize,
    depth: u32,
    deepest: u32,
    /// Whether lines are lists of arc indexes.
    is_topology: bool,
    /// Whether positions are whole numbers of a grid.
    is_gridded: bool,
    is_exact: bool,
    limit: i64,
    /// The least and the greatest cells.
    low: Position,
    high: Position,
}

fn is_digit(byte: u8) -> bool {
    byte.is_ascii_digit()
}

impl<'a> Reader<'a> {
    fn new(bytes: &'a [u8], is_topology: bool, is_exact: bool) -> Answer<Reader<'a>> {
        if bytes.len() > 1_000_000_000 {
            return Err("too long");
        }
        if std::str::from_utf8(bytes).is_err() {
            return Err("not UTF-8");
        }
        let mut reader = Reader {
            bytes,
            at: if bytes.starts_with(b"\xef\xbb\xbf") { 3 } else { 0 },
            depth: 0,
            deepest: if is_topology { 255 } else { 127 },
            is_topology,
            is_gridded: false,
            is_exact,
            limit: if is_topology { 300_000_000_000_000_000 } else { 100_000_000_000_000_000 },
            low: (i64::MAX, i64::MAX),
            high: (i64::MIN, i64::MIN),
        };
        reader.space();
        Ok(reader)
    }

    #[inline(always)]
    fn peek(&self) -> u8 {
        match self.bytes.get(self.at) {
            Some(&byte) => byte,
            None => 0,
        }
    }

    #[inline(always)]
    fn space(&mut self) {
        while matches!(self.peek(), b' ' | b'\n' | b'\r' | b'\t') {
            self.at += 1;
        }
    }

    #[inline(always)]
    fn open(&mut self, bracket: u8) -> Answer<()> {
        if self.peek() != bracket || self.depth == self.deepest {
            return Err(MALFORMED);
        }
        self.at += 1;
        self.depth += 1;
        self.space();
        Ok(())
    }

    fn end(&mut self) -> Answer<()> {
        self.space();
        if self.at == self.bytes.len() { Ok(()) } else { Err(MALFORMED) }
    }

    /// Whether an element follows, at which the cursor then stands.
    #[inline(always)]
    fn element(&mut self, is_first: &mut bool) -> Answer<bool> {
        if !*is_first || self.peek() == b']' {
            self.space();
            match self.peek() {
                b',' if !*is_first => {
                    self.at += 1;
                    self.space();
                }
                b']' => {
                    self.at += 1;
                    self.depth -= 1;
                    return Ok(false);
                }
                _ => return Err(MALFORMED),
            }
        }
        *is_first = false;
        Ok(true)
    }

    /// The name of the member that follows, at whose value the cursor then stands.
    fn member(&mut self, is_first: &mut bool) -> Answer<Option<Cow<'a, [u8]>>> {
        self.space();
        match self.peek() {
            b'}' => {
                self.at += 1;
                self.depth -= 1;
                return Ok(None);
            }
            b',' if !*is_first => {
                self.at += 1;
                self.space();
            }
            _ if *is_first => {}
            _ => return Err(MALFORMED),
        }
        *is_first = false;
        let (text, has_escapes) = self.text()?;
        self.space();
        if self.peek() != b':' {
            return Err(MALFORMED);
        }
        self.at += 1;
        self.space();
        Ok(Some(if has_escapes { Cow::Owned(unescaped(text)) } else { Cow::Borrowed(text) }))
    }

    fn hex(&self, at: usize) -> Answer<u32> {
        let digits = self.bytes.get(at..at + 4).ok_or(MALFORMED)?;
        digits.iter().try_fold(0, |sum, &digit| Ok(sum * 16 + (digit as char).to_digit(16).ok_or(MALFORMED)?))
    }

    /// What stands between the quotation marks of a text, and whether it has escapes.
    fn text(&mut self) -> Answer<(&'a [u8], bool)> {
        if self.peek() != b'"' {
            return Err(MALFORMED);
        }
        self.at += 1;
        let start = self.at;
        let mut has_escapes = false;
        loop {
            match self.peek() {
                b'"' => break,
                0..=0x1f => return Err(MALFORMED),
                b'\\' => {
                    has_escapes = true;
                    match self.bytes.get(self.at + 1) {
                        Some(b'"' | b'\\' | b'/' | b'b' | b'f' | b'n' | b'r' | b't') => self.at += 2,
                        Some(b'u') => {
                            let code = self.hex(self.at + 2)?;
                            self.at += 6;
                            if code & 0xfc00 == 0xdc00 {
                                return Err(MALFORMED);
                            }
                            if code & 0xfc00 == 0xd800 {
                                if self.bytes.get(self.at..self.at + 2) != Some(b"\\u") || self.hex(self.at + 2)? & 0xfc00 != 0xdc00 {
                                    return Err(MALFORMED);
                                }
                                self.at += 6;
                            }
                        }
                        _ => return Err(MALFORMED),
                    }
                }
                _ => self.at += 1,
            }
        }
        self.at += 1;
        Ok((&self.bytes[start..self.at - 1], has_escapes))
    }

    /// The text of a number.
    fn number(&mut self) -> Answer<&'a [u8]> {
        let start = self.at;
        if self.peek() == b'-' {
            self.at += 1;
        }
        if self.peek() == b'0' {
            self.at += 1;
        } else {
            self.digits()?;
        }
        if self.peek() == b'.' {
            self.at += 1;
            self.digits()?;
        }
        if self.peek() | 0x20 == b'e' {
            self.at += 1;
            if matches!(self.peek(), b'+' | b'-') {
                self.at += 1;
            }
            self.digits()?;
        }
        Ok(&self.bytes[start..self.at])
    }

    fn digits(&mut self) -> Answer<()> {
        if !is_digit(self.peek()) {
            return Err(MALFORMED);
        }
        while is_digit(self.peek()) {
            self.at += 1;
        }
        Ok(())
    }

    /// Goes behind a value.
    fn skip(&mut self) -> Answer<()> {
        let mut is_first = true;
        match self.peek() {
            b'"' => self.text().map(|_| ()),
            b'[' => {
                self.open(b'[')?;
                while self.element(&mut is_first)? {
                    self.skip()?;
                }
                Ok(())
            }
            b'{' => {
                self.open(b'{')?;
                while self.member(&mut is_first)?.is_some() {
                    self.skip()?;
                }
                Ok(())
            }
            b't' => self.word(b"true"),
            b'f' => self.word(b"false"),
            b'n' => self.word(b"null"),
            _ => self.number().map(|_| ()),
        }
    }

    fn word(&mut self, word: &[u8]) -> Answer<()> {
        if !self.bytes[self.at..].starts_with(word) {
            return Err(MALFORMED);
        }
        self.at += word.len();
        Ok(())
    }

    /// The span of a value that begins with one of these, or none for a null.
    fn span(&mut self, begins: impl Fn(u8) -> bool) -> Answer<&'a [u8]> {
        let start = self.at;
        if !begins(self.peek()) && self.peek() != b'n' {
            return Err("wrong kind");
        }
        self.skip()?;
        Ok(if self.bytes[start] == b'n' { &[] } else { &self.bytes[start..self.at] })
    }

    fn id(&mut self) -> Answer<&'a [u8]> {
        self.span(|byte| matches!(byte, b'"' | b'-' | b'0'..=b'9'))
    }

    fn properties(&mut self) -> Answer<&'a [u8]> {
        self.span(|byte| byte == b'{')
    }

    /// Looks for the type in the members of the object in which the cursor stands, and leaves the cursor where it is.
    fn find_type(&mut self) -> Answer<Cow<'a, [u8]>> {
        let place = (self.at, self.depth);
        let mut is_first = true;
        while let Some(name) = self.member(&mut is_first)? {
            if *name == *b"type" {
                let text = if self.is_topology && self.peek() == b'n' {
                    self.word(b"null")?;
                    Cow::Borrowed(&b""[..])
                } else {
                    let (text, has_escapes) = self.text()?;
                    if text.is_empty() {
                        return Err("unknown type");
                    }
                    if has_escapes { Cow::Owned(unescaped(text)) } else { Cow::Borrowed(text) }
                };
                (self.at, self.depth) = place;
                return Ok(text);
            }
            self.skip()?;
        }
        Err("no type")
    }

    /// A coordinate in units.
    #[inline]
    fn coordinate(&mut self, store: &mut Store) -> Answer<i64> {
        let mut at = self.at;
        let byte = |at: usize| if at < self.bytes.len() { self.bytes[at] } else { 0 };
        let is_negative = byte(at) == b'-';
        at += is_negative as usize;
        let first = at;
        let mut sum = 0u64;
        while is_digit(byte(at)) {
            sum = sum.wrapping_mul(10).wrapping_add((byte(at) - b'0') as u64);
            at += 1;
        }
        let whole = at - first;
        if whole == 0 || whole > 9 || (whole > 1 && byte(first) == b'0') {
            return self.odd_coordinate(store);
        }
        let (mut places, mut up, mut is_inexact) = (0, false, false);
        if byte(at) == b'.' {
            at += 1;
            let start = at;
            while is_digit(byte(at)) && at < start + 9 {
                sum = sum * 10 + (byte(at) - b'0') as u64;
                at += 1;
            }
            places = at - start;
            if places == 0 {
                return Err(MALFORMED);
            }
            if places == 9 && is_digit(byte(at)) {
                up = byte(at) >= b'5';
                while is_digit(byte(at)) {
                    is_inexact |= byte(at) != b'0';
                    at += 1;
                }
            }
        }
        if byte(at) | 0x20 == b'e' {
            return self.odd_coordinate(store);
        }
        self.at = at;
        let units = (sum * POWERS[9 - places] + up as u64) as i64;
        self.rounded(if is_negative { -units } else { units }, is_inexact, store)
    }

    #[cold]
    fn odd_coordinate(&mut self, store: &mut Store) -> Answer<i64> {
        let text = self.number()?;
        let (units, is_inexact) = decimal(text, 9).ok_or("out of range")?;
        self.rounded(i64::try_from(units).map_err(|_| "out of range")?, is_inexact, store)
    }

    #[inline(always)]
    fn rounded(&self, units: i64, is_inexact: bool, store: &mut Store) -> Answer<i64> {
        if units > self.limit || units < -self.limit {
            return Err("out of range");
        }
        if is_inexact {
            if self.is_exact {
                return Err("inexact");
            }
            store.rounded += 1;
        }
        Ok(units)
    }

    /// A whole number up to this limit, which is below 10^18.
    #[inline]
    fn whole(&mut self, limit: i64) -> Answer<i64> {
        let mut at = self.at;
        let byte = |at: usize| if at < self.bytes.len() { self.bytes[at] } else { 0 };
        let is_negative = byte(at) == b'-';
        at += is_negative as usize;
        let first = at;
        let mut sum = 0u64;
        while is_digit(byte(at)) {
            sum = sum.wrapping_mul(10).wrapping_add((byte(at) - b'0') as u64);
            at += 1;
        }
        let count = at - first;
        let value = if count == 0 || count > 18 || (count > 1 && byte(first) == b'0') || matches!(byte(at), b'.' | b'e' | b'E') {
            let (value, is_inexact) = decimal(self.number()?, 0).ok_or("out of range")?;
            if is_inexact {
                return Err("not whole");
            }
            i64::try_from(value).map_err(|_| "out of range")?
        } else {
            self.at = at;
            if is_negative { -(sum as i64) } else { sum as i64 }
        };
        if value > limit || value < -limit { Err("out of range") } else { Ok(value) }
    }

    /// A pair of numbers, each read by `part`, and perhaps more elements.
    #[inline(always)]
    fn pair<T>(&mut self, store: &mut Store, mut part: impl FnMut(&mut Self, &mut Store) -> Answer<T>) -> Answer<(T, T)> {
        self.open(b'[')?;
        let x = part(self, store)?;
        self.space();
        if self.peek() != b',' {
            return Err(MALFORMED);
        }
        self.at += 1;
        self.space();
        let y = part(self, store)?;
        self.space();
        if self.peek() == b']' {
            self.at += 1;
            self.depth -= 1;
        } else {
            store.extra += 1;
            self.rest()?;
        }
        Ok((x, y))
    }

    /// The further elements of an array.
    #[cold]
    fn rest(&mut self) -> Answer<()> {
        let mut is_first = false;
        while self.element(&mut is_first)? {
            self.skip()?;
        }
        Ok(())
    }

    #[inline(always)]
    fn position(&mut self, store: &mut Store) -> Answer<Position> {
        self.pair(store, Self::coordinate)
    }

    fn single(&mut self, store: &mut Store) -> Answer<()> {
        let position = if self.is_gridded {
            let cell = self.pair(store, |reader, _| reader.whole(1 << 31))?;
            self.stretch(cell);
            cell
        } else {
            self.position(store)?
        };
        store.singles.push(position);
        Ok(())
    }

    #[inline(always)]
    fn stretch(&mut self, (x, y): Position) {
        self.low = (self.low.0.min(x), self.low.1.min(y));
        self.high = (self.high.0.max(x), self.high.1.max(y));
    }

    /// A line or ring; whether it isn't an empty array.
    fn line(&mut self, store: &mut Store, is_ring: bool) -> Answer<bool> {
        self.open(b'[')?;
        let mut is_first = true;
        let (start, end);
        if self.is_topology {
            start = store.uses.len();
            while self.element(&mut is_first)? {
                store.uses.push(self.whole(1 << 31)?.try_into().map_err(|_| "no such arc")?);
            }
            end = store.uses.len();
        } else {
            start = store.points.len();
            while self.element(&mut is_first)? {
                let position = self.position(store)?;
                store.points.push(position);
            }
            end = store.points.len();
        }
        if start == end {
            store.empty += 1;
            return Ok(false);
        }
        if !self.is_topology {
            if end - start < if is_ring { 4 } else { 2 } {
                return Err("short line");
            }
            if is_ring && store.points[start] != store.points[end - 1] {
                return Err("open ring");
            }
        }
        store.lines.push(Line { start: short(start)?, end: short(end)?, is_ring, cause: Cause::Kept });
        Ok(true)
    }

    /// A list of lines, or of the rings of a polygon; none if nothing is left of it.
    fn lines(&mut self, store: &mut Store, are_rings: bool) -> Answer<Option<(u32, u32)>> {
        self.open(b'[')?;
        let (points, lines) = (store.points.len(), store.lines.len());
        let (mut is_first, mut has_outer, mut count) = (true, true, 0);
        while self.element(&mut is_first)? {
            let is_read = self.line(store, are_rings)?;
            has_outer &= is_read || !are_rings || count > 0;
            count += 1;
        }
        if count == 0 {
            store.empty += 1;
        }
        if !has_outer {
            if self.is_topology {
                store.lines[lines..].iter_mut().for_each(|line| line.cause = Cause::Unread);
            } else {
                store.points.truncate(points);
                store.lines.truncate(lines);
            }
        }
        let end = store.lines.len();
        Ok(if has_outer && end > lines { Some((short(lines)?, short(end)?)) } else { None })
    }

    fn geometries(&mut self, store: &mut Store) -> Answer<Shape> {
        self.open(b'[')?;
        let mut is_first = true;
        let mut shapes = Vec::new();
        while self.element(&mut is_first)? {
            match self.geometry(store, false)?.shape {
                Shape::Null => {}
                shape => shapes.push(shape),
            }
        }
        Ok(Shape::Collection(shapes.into()))
    }

    fn part(&mut self, store: &mut Store, kind: Kind) -> Answer<Shape> {
        let some = |range: Option<(u32, u32)>, shape: fn(u32, u32) -> Shape| range.map_or(Shape::Null, |(start, end)| shape(start, end));
        let mut is_first = true;
        Ok(match kind {
            Kind::Point => {
                if self.bytes[self.at..].starts_with(b"[") {
                    let place = (self.at, self.depth);
                    self.open(b'[')?;
                    if self.peek() == b']' {
                        self.at += 1;
                        self.depth -= 1;
                        store.empty += 1;
                        return Ok(Shape::Null);
                    }
                    (self.at, self.depth) = place;
                }
                self.single(store)?;
                Shape::Point(short(store.singles.len() - 1)?)
            }
            Kind::MultiPoint => {
                let start = store.singles.len();
                self.open(b'[')?;
                while self.element(&mut is_first)? {
                    self.single(store)?;
                }
                if store.singles.len() == start {
                    store.empty += 1;
                    return Ok(Shape::Null);
                }
                Shape::MultiPoint(short(start)?, short(store.singles.len())?)
            }
            Kind::Line => {
                if self.line(store, false)? {
                    Shape::Line(short(store.lines.len() - 1)?)
                } else {
                    Shape::Null
                }
            }
            Kind::MultiLine => some(self.lines(store, false)?, Shape::MultiLine),
            Kind::Polygon => some(self.lines(store, true)?, Shape::Polygon),
            Kind::MultiPolygon => {
                let start = store.polygons.len();
                self.open(b'[')?;
                if self.peek() == b']' {
                    store.empty += 1;
                }
                while self.element(&mut is_first)? {
                    if let Some(polygon) = self.lines(store, true)? {
                        store.polygons.push(polygon);
                    }
                }
                if store.polygons.len() == start {
                    return Ok(Shape::Null);
                }
                Shape::MultiPolygon(short(start)?, short(store.polygons.len())?)
            }
            Kind::Collection => self.geometries(store)?,
            Kind::Null => Shape::Null,
        })
    }

    /// The name of the member in which a geometry's lines stand.
    fn part_name(&self, kind: Kind) -> &'static [u8] {
        match kind {
            Kind::Null => b"",
            Kind::Collection => b"geometries",
            Kind::Point | Kind::MultiPoint => b"coordinates",
            _ if self.is_topology => b"arcs",
            _ => b"coordinates",
        }
    }

    /// A geometry object, and its identifier and properties if these are looked at.
    fn geometry(&mut self, store: &mut Store, is_feature: bool) -> Answer<Feature<'a>> {
        self.open(b'{')?;
        let kind = kind(&self.find_type()?)?;
        self.members(store, kind, is_feature)
    }

    /// The members of a geometry object of this kind.
    fn members(&mut self, store: &mut Store, kind: Kind, is_feature: bool) -> Answer<Feature<'a>> {
        let part_name = self.part_name(kind);
        let mut feature = Feature { id: &[], properties: &[], shape: Shape::Null };
        let (mut types, mut ids, mut properties, mut parts) = (0, 0, 0, 0);
        let mut is_first = true;
        while let Some(name) = self.member(&mut is_first)? {
            if *name == *b"type" {
                types += 1;
                self.skip()?;
            } else if *name == *part_name && kind != Kind::Null {
                parts += 1;
                feature.shape = self.part(store, kind)?;
            } else if is_feature && *name == *b"id" {
                ids += 1;
                feature.id = self.id()?;
            } else if is_feature && *name == *b"properties" {
                properties += 1;
                feature.properties = self.properties()?;
            } else {
                self.skip()?;
            }
        }
        if types > 1 || ids > 1 || properties > 1 || parts > 1 {
            return Err("a member stands twice");
        }
        if parts == 0 && kind != Kind::Null {
            return Err("no coordinates");
        }
        Ok(feature)
    }

    /// The members of a Feature of a layer.
    fn feature(&mut self, store: &mut Store) -> Answer<Feature<'a>> {
        let mut feature = Feature { id: &[], properties: &[], shape: Shape::Null };
        let (mut types, mut ids, mut properties, mut geometries) = (0, 0, 0, 0);
        let mut is_first = true;
        while let Some(name) = self.member(&mut is_first)? {
            match &*name {
                b"type" => {
                    types += 1;
                    let (text, has_escapes) = self.text()?;
                    let is_feature = if has_escapes { unescaped(text) == b"Feature" } else { text == b"Feature" };
                    if !is_feature {
                        return Err("unknown type");
                    }
                }
                b"id" => {
                    ids += 1;
                    feature.id = self.id()?;
                }
                b"properties" => {
                    properties += 1;
                    feature.properties = self.properties()?;
                }
                b"geometry" => {
                    geometries += 1;
                    if self.peek() == b'n' {
                        self.word(b"null")?;
                    } else {
                        feature.shape = self.geometry(store, false)?.shape;
                    }
                }
                _ => self.skip()?,
            }
        }
        if types != 1 || ids > 1 || properties > 1 || geometries > 1 {
            return Err("a member stands twice, or there is no type");
        }
        Ok(feature)
    }

    fn layer(&mut self, store: &mut Store) -> Answer<Vec<Feature<'a>>> {
        self.open(b'{')?;
        let mut features = Vec::new();
        match &*self.find_type()? {
            b"FeatureCollection" => {
                let (mut types, mut lists) = (0, 0);
                let (mut is_first, mut is_first_feature) = (true, true);
                while let Some(name) = self.member(&mut is_first)? {
                    match &*name {
                        b"type" => {
                            types += 1;
                            self.skip()?;
                        }
                        b"features" => {
                            lists += 1;
                            self.open(b'[')?;
                            while self.element(&mut is_first_feature)? {
                                self.open(b'{')?;
                                features.push(self.feature(store)?);
                            }
                        }
                        _ => self.skip()?,
                    }
                }
                if types != 1 || lists != 1 {
                    return Err("a member stands twice, or there are no features");
                }
            }
            b"Feature" => features.push(self.feature(store)?),
            name => {
                let kind = kind(name)?;
                features.push(self.members(store, kind, false)?);
            }
        }
        self.end()?;
        Ok(features)
    }
}

fn kind(name: &[u8]) -> Answer<Kind> {
    Ok(match name {
        b"" => Kind::Null,
        b"Point" => Kind::Point,
        b"MultiPoint" => Kind::MultiPoint,
        b"LineString" => Kind::Line,
        b"MultiLineString" => Kind::MultiLine,
        b"Polygon" => Kind::Polygon,
        b"MultiPolygon" => Kind::MultiPolygon,
        b"GeometryCollection" => Kind::Collection,
        _ => return Err("unknown type"),
    })
}

/// A number text times 10^places, rounded to the nearest whole number, halves away from zero, and whether it was rounded; none if it is
/// of more than 37 digits.
fn decimal(text: &[u8], places: i64) -> Option<(i128, bool)> {
    let is_negative = text[0] == b'-';
    let text = &text[is_negative as usize..];
    let (mantissa, exponent) = match text.iter().position(|byte| byte | 0x20 == b'e') {
        Some(at) => (&text[..at], &text[at + 1..]),
        None => (text, &b"0"[..]),
    };
    let power = exponent.iter().filter(|&&byte| is_digit(byte));
    let power = power.fold(0i64, |sum, byte| if sum > 1_000_000_000_000 { sum } else { sum * 10 + (byte - b'0') as i64 });
    let power = if exponent[0] == b'-' { -power } else { power };
    let whole = mantissa.iter().position(|&byte| byte == b'.').unwrap_or(mantissa.len());
    let zeros = mantissa.iter().filter(|&&byte| byte != b'.').take_while(|&&byte| byte == b'0').count();
    let digits = mantissa.iter().filter(|&&byte| byte != b'.').skip(zeros);
    let count = digits.clone().count();
    if count == 0 {
        return Some((0, false));
    }
    let length = whole as i64 - zeros as i64 + power + places;
    if length > 37 {
        return None;
    }
    if length < 0 {
        return Some((0, true));
    }
    let mut rest = digits.clone().skip(length as usize);
    let mut sum = digits.take(length as usize).fold(0i128, |sum, byte| sum * 10 + (byte - b'0') as i128);
    for _ in count..length as usize {
        sum *= 10;
    }
    let is_inexact = rest.clone().any(|&byte| byte != b'0');
    if rest.next().is_some_and(|&byte| byte >= b'5') {
        sum += 1;
    }
    Some((if is_negative { -sum } else { sum }, is_inexact))
}

/// The characters of a text that was read.
fn unescaped(text: &[u8]) -> Vec<u8> {
    let mut out = Vec::with_capacity(text.len());
    let hex = |at: usize| text[at..at + 4].iter().fold(0, |sum, &digit| sum * 16 + (digit as char).to_digit(16).unwrap_or(0));
    let mut at = 0;
    while at < text.len() {
        if text[at] != b'\\' {
            out.push(text[at]);
            at += 1;
            continue;
        }
        at += 2;
        out.push(match text[at - 1] {
            b'b' => 8,
            b'f' => 12,
            b'n' => b'\n',
            b'r' => b'\r',
            b't' => b'\t',
            b'u' => {
                let mut code = hex(at);
                at += 4;
                if code & 0xfc00 == 0xd800 {
                    code = 0x10000 + ((code & 0x3ff) << 10) + (hex(at + 2) & 0x3ff);
                    at += 6;
                }
                let character = char::from_u32(code).unwrap_or('\u{fffd}');
                out.extend_from_slice(character.encode_utf8(&mut [0; 4]).as_bytes());
                continue;
            }
            other => other,
        });
    }
    out
}

// ---- A topology that is read

/// How positions stand for units of 10^-9.
#[derive(Clone, Copy)]
enum Placing {
    /// As they are.
    Units,
    /// Times the first, and then plus the second, in units.
    Cells(Position, Position),
    /// The same in units of 10^-20, and then rounded.
    Fine((i128, i128), (i128, i128)),
}

fn fine(cell: i64, scale: i128, translate: i128) -> i128 {
    const UNIT: i128 = 100_000_000_000;
    let sum = cell as i128 * scale + translate;
    if sum < 0 { (sum - UNIT / 2) / UNIT } else { (sum + UNIT / 2) / UNIT }
}

impl Placing {
    #[inline(always)]
    fn of(&self, (x, y): Position) -> Position {
        match *self {
            Placing::Units => (x, y),
            Placing::Cells(scale, translate) => (x * scale.0 + translate.0, y * scale.1 + translate.1),
            Placing::Fine(scale, translate) => (fine(x, scale.0, translate.0) as i64, fine(y, scale.1, translate.1) as i64),
        }
    }

    /// Whether different cells may be one position.
    fn may_join(&self) -> bool {
        match self {
            Placing::Fine(scale, _) => scale.0.abs() < 100_000_000_000 || scale.1.abs() < 100_000_000_000,
            Placing::Cells(scale, _) => scale.0 == 0 || scale.1 == 0,
            Placing::Units => false,
        }
    }
}

#[derive(Clone, Copy)]
struct Transform<'a> {
    /// The texts of the numbers: two of the scale, and two of the translation.
    texts: [&'a [u8]; 4],
    numbers: [i128; 4],
}

impl Transform<'_> {
    fn placing(&self) -> Placing {
        const UNIT: i128 = 100_000_000_000;
        let [a, b, c, d] = self.numbers;
        if self.numbers.iter().all(|number| number % UNIT == 0) {
            let unit = |number: i128| (number / UNIT) as i64;
            Placing::Cells((unit(a), unit(b)), (unit(c), unit(d)))
        } else {
            Placing::Fine((a, b), (c, d))
        }
    }
}

struct Topology<'a> {
    store: Store,
    arcs: Vec<(u32, u32)>,
    objects: Vec<Object<'a>>,
    texts: Option<[Cow<'a, [u8]>; 4]>,
    placing: Placing,
}

impl<'a> Reader<'a> {
    fn transform(&mut self) -> Answer<Option<Transform<'a>>> {
        if self.peek() == b'n' {
            self.word(b"null")?;
            return Ok(None);
        }
        self.open(b'{')?;
        let mut pairs = [None; 2];
        let mut is_first = true;
        let mut store = Store::default();
        while let Some(name) = self.member(&mut is_first)? {
            let pair = match &*name {
                b"scale" => &mut pairs[0],
                b"translate" => &mut pairs[1],
                _ => {
                    self.skip()?;
                    continue;
                }
            };
            if pair.is_some() {
                return Err("a member stands twice");
            }
            *pair = Some(self.pair(&mut store, |reader, _| reader.number())?);
        }
        let ((a, b), (c, d)) = (pairs[0].ok_or("no scale")?, pairs[1].ok_or("no translation")?);
        let mut transform = Transform { texts: [a, b, c, d], numbers: [0; 4] };
        for (number, text) in transform.numbers.iter_mut().zip(transform.texts) {
            *number = decimal(text, 20).ok_or("out of range")?.0;
            if number.abs() > 30_000_000_000_000_000_000_000_000_000 {
                return Err("out of range");
            }
        }
        Ok(Some(transform))
    }

    fn arcs(&mut self, store: &mut Store) -> Answer<Vec<(u32, u32)>> {
        self.open(b'[')?;
        let mut arcs = Vec::new();
        let mut is_first = true;
        while self.element(&mut is_first)? {
            let start = store.points.len();
            self.open(b'[')?;
            let mut is_first = true;
            if self.is_gridded {
                let (mut x, mut y) = (0, 0);
                while self.element(&mut is_first)? {
                    let step = self.pair(store, |reader, _| reader.whole(1 << 32))?;
                    (x, y) = (x + step.0, y + step.1);
                    if x.abs() > 1 << 31 || y.abs() > 1 << 31 {
                        return Err("out of range");
                    }
                    self.stretch((x, y));
                    store.points.push((x, y));
                }
            } else {
                while self.element(&mut is_first)? {
                    let position = self.position(store)?;
                    store.points.push(position);
                }
            }
            let end = store.points.len();
            if end < start + 2 {
                return Err("short arc");
            }
            arcs.push((short(start)?, short(end)?));
        }
        Ok(arcs)
    }

    fn objects(&mut self, store: &mut Store) -> Answer<Vec<Object<'a>>> {
        self.open(b'{')?;
        let mut objects: Vec<Object> = Vec::new();
        let mut names = std::collections::HashSet::new();
        let mut is_first = true;
        while let Some(name) = self.member(&mut is_first)? {
            let mut text = Vec::new();
            put_text(&mut text, &name);
            if !names.insert(name) {
                return Err("two objects have one name");
            }
            self.open(b'{')?;
            let kind = kind(&self.find_type()?)?;
            let mut features = Vec::new();
            if kind == Kind::Collection {
                let (mut types, mut lists) = (0, 0);
                let mut is_first = true;
                while let Some(name) = self.member(&mut is_first)? {
                    match &*name {
                        b"type" => {
                            types += 1;
                            self.skip()?;
                        }
                        b"geometries" => {
                            lists += 1;
                            self.open(b'[')?;
                            let mut is_first = true;
                            while self.element(&mut is_first)? {
                                features.push(self.geometry(store, true)?);
                            }
                        }
                        _ => self.skip()?,
                    }
                }
                if types != 1 || lists != 1 {
                    return Err("a member stands twice, or there are no geometries");
                }
            } else {
                features.push(self.members(store, kind, true)?);
            }
            objects.push(Object { name: text, is_collection: kind == Kind::Collection, features });
        }
        Ok(objects)
    }

    /// The members of a topology. Its transform is given where it stands behind arcs or objects, and the answer is none where that
    /// isn't known yet.
    fn topology(&mut self, known: Option<Transform<'a>>) -> Answer<Option<Topology<'a>>> {
        let mut store = Store::default();
        let mut transform = known;
        let (mut types, mut transforms, mut arcs, mut objects) = (0, 0, None, None);
        self.is_gridded = known.is_some();
        let mut is_first = true;
        self.open(b'{')?;
        while let Some(name) = self.member(&mut is_first)? {
            match &*name {
                b"type" => {
                    types += 1;
                    let (text, _) = self.text()?;
                    if unescaped(text) != b"Topology" {
                        return Err("no topology");
                    }
                }
                b"transform" => {
                    transforms += 1;
                    transform = self.transform()?;
                    if transform.is_some() && !self.is_gridded {
                        if arcs.is_some() || objects.is_some() {
                            return Ok(None);
                        }
                        self.is_gridded = true;
                    }
                }
                b"arcs" if arcs.is_none() => arcs = Some(self.arcs(&mut store)?),
                b"objects" if objects.is_none() => objects = Some(self.objects(&mut store)?),
                b"arcs" | b"objects" => return Err("a member stands twice"),
                _ => self.skip()?,
            }
        }
        self.end()?;
        if types != 1 || transforms > 1 {
            return Err("a member stands twice, or there is no type");
        }
        let (arcs, objects) = (arcs.ok_or("no arcs")?, objects.ok_or("no objects")?);
        let mut placing = Placing::Units;
        if let Some(transform) = transform {
            placing = transform.placing();
            if self.low.0 <= self.high.0 {
                let [a, b, c, d] = transform.numbers;
                let ends = [fine(self.low.0, a, c), fine(self.high.0, a, c), fine(self.low.1, b, d), fine(self.high.1, b, d)];
                if ends.iter().any(|end| end.abs() > self.limit as i128) {
                    return Err("out of range");
                }
            }
        }
        let texts = transform.map(|transform| transform.texts.map(Cow::Borrowed));
        let topology = Topology { store, arcs, objects, texts, placing };
        topology.check()?;
        Ok(Some(topology))
    }

    /// The transform of a topology, wherever it stands.
    fn late_transform(&mut self) -> Answer<Option<Transform<'a>>> {
        self.open(b'{')?;
        let mut is_first = true;
        while let Some(name) = self.member(&mut is_first)? {
            if *name == *b"transform" {
                return self.transform();
            }
            self.skip()?;
        }
        Ok(None)
    }
}

impl<'a> Topology<'a> {
    fn read(bytes: &'a [u8]) -> Answer<Topology<'a>> {
        let first = Reader::new(bytes, true, false)?.topology(None);
        if let Ok(Some(topology)) = first {
            return Ok(topology);
        }
        let transform = Reader::new(bytes, true, false)?.late_transform()?;
        match first {
            Err(fault) if transform.is_none() => Err(fault),
            _ => Reader::new(bytes, true, false)?.topology(transform)?.ok_or(MALFORMED),
        }
    }

    /// The first and the last position of an arc as it is used.
    fn ends(&self, used: i32) -> Answer<(Position, Position)> {
        let &(start, end) = self.arcs.get((used ^ (used >> 31)) as usize).ok_or("no such arc")?;
        let (first, last) = (self.store.points[start as usize], self.store.points[end as usize - 1]);
        Ok(if used < 0 { (last, first) } else { (first, last) })
    }

    /// Whether the arcs of all lines are there, and meet.
    fn check(&self) -> Answer<()> {
        for line in &self.store.lines {
            let uses = &self.store.uses[line.start as usize..line.end as usize];
            let (start, mut end) = self.ends(uses[0])?;
            for &used in &uses[1..] {
                let (first, last) = self.ends(used)?;
                if first != end {
                    return Err("arcs that don't meet");
                }
                end = last;
            }
            if line.is_ring && start != end {
                return Err("open ring");
            }
        }
        Ok(())
    }
}

// ---- Cutting

#[derive(Default)]
struct Mixer(u64);

fn mix(x: u64, y: u64) -> u64 {
    let product = (x ^ 0x9e37_79b9_7f4a_7c15) as u128 * (y ^ x.rotate_left(32) ^ 0xd6e8_feb8_6659_fd93) as u128;
    (product >> 64) as u64 ^ product as u64
}

impl Hasher for Mixer {
    fn finish(&self) -> u64 {
        self.0
    }
    fn write(&mut self, bytes: &[u8]) {
        bytes.iter().for_each(|&byte| self.write_u64(byte as u64));
    }
    fn write_u64(&mut self, value: u64) {
        self.0 = mix(self.0, value);
    }
}

/// Leaves out neighbours that are equal in lines and rings, and marks those that collapse.
fn clean(store: &mut Store) -> Answer<()> {
    let mut to = 0;
    for line in &mut store.lines {
        let start = to;
        for at in line.start as usize..line.end as usize {
            let position = store.points[at];
            if to == start || store.points[to - 1] != position {
                store.points[to] = position;
                to += 1;
            }
        }
        if to - start < if line.is_ring { 4 } else { 2 } {
            line.cause = Cause::Collapsed;
            to = start;
        }
        (line.start, line.end) = (short(start)?, short(to)?);
    }
    store.points.truncate(to);
    Ok(())
}

/// Gives each position a number, and answers those of all points, and the positions by number.
fn numbered(points: &[Position]) -> (Vec<u32>, Vec<Position>) {
    let size = (points.len() + points.len() / 2 + 2).next_power_of_two();
    let shift = 64 - size.trailing_zeros();
    let mask = size - 1;
    let mut table = vec![NONE; size];
    let mut positions: Vec<Position> = Vec::new();
    let mut numbers = Vec::with_capacity(points.len());
    for &point in points {
        let mut slot = (mix(point.0 as u64, point.1 as u64) >> shift) as usize;
        let number = loop {
            let number = table[slot];
            if number == NONE {
                let number = positions.len() as u32;
                table[slot] = number;
                positions.push(point);
                break number;
            }
            if positions[number as usize] == point {
                break number;
            }
            slot = (slot + 1) & mask;
        };
        numbers.push(number);
    }
    (numbers, positions)
}

/// The junctions among so many positions: a flag for each.
fn junctions(lines: &[Line], numbers: &[u32], count: usize) -> Vec<bool> {
    let mut neighbours = vec![[NONE; 2]; count];
    let mut is_junction = vec![false; count];
    let mut visit = |before: u32, at: u32, after: u32| {
        let pair = &mut neighbours[at as usize];
        if pair[0] == NONE {
            *pair = [before, after];
            if before == after {
                is_junction[at as usize] = true;
            }
        } else if *pair != [before, after] && *pair != [after, before] {
            is_junction[at as usize] = true;
        }
    };
    let kept = || lines.iter().filter(|line| line.cause == Cause::Kept);
    for line in kept() {
        let numbers = &numbers[line.start as usize..line.end as usize];
        for window in numbers.windows(3) {
            visit(window[0], window[1], window[2]);
        }
        if line.is_ring {
            visit(numbers[numbers.len() - 2], numbers[0], numbers[1]);
        }
    }
    for line in kept().filter(|line| !line.is_ring) {
        is_junction[numbers[line.start as usize] as usize] = true;
        is_junction[numbers[line.end as usize - 1] as usize] = true;
    }
    is_junction
}

/// Cuts all lines at their junctions, and puts the arcs in the place of the points.
fn cut(store: &mut Store) -> Answer<Vec<(u32, u32)>> {
    clean(store)?;
    let (mut numbers, positions) = numbered(&store.points);
    store.points = Vec::new();
    let is_junction = junctions(&store.lines, &numbers, positions.len());
    let mut arcs = Vec::new();
    let mut firsts: HashMap<u64, i32, BuildHasherDefault<Mixer>> = HashMap::default();
    let mut points = Vec::with_capacity(positions.len() + positions.len() / 8);
    let mut uses = Vec::with_capacity(store.lines.len());
    for line in &mut store.lines {
        if line.cause != Cause::Kept {
            continue;
        }
        let numbers = &mut numbers[line.start as usize..line.end as usize];
        if line.is_ring {
            turn(numbers, &positions, &is_junction);
        }
        let first = uses.len();
        let mut from = 0;
        for at in 1..numbers.len() {
            // A ring may wind more than once, and is cut wherever it comes to its start.
            let is_cut = is_junction[numbers[at] as usize] || (line.is_ring && numbers[at] == numbers[0]);
            if at + 1 < numbers.len() && !is_cut {
                continue;
            }
            let segment = |a: u32, b: u32| (a as u64) << 32 | b as u64;
            let number = arcs.len() as i32;
            let used = *firsts.entry(segment(numbers[from], numbers[from + 1])).or_insert(number);
            if used == number {
                firsts.insert(segment(numbers[at], numbers[at - 1]), !number);
                let start = short(points.len())?;
                points.extend(numbers[from..=at].iter().map(|&number| positions[number as usize]));
                arcs.push((start, short(points.len())?));
            }
            uses.push(used);
            from = at;
        }
        (line.start, line.end) = (short(first)?, short(uses.len())?);
    }
    store.points = points;
    store.uses = uses;
    Ok(arcs)
}

/// Turns a ring, so that it starts at its first visit of its least junction, or of its least position if it has none.
fn turn(ring: &mut [u32], positions: &[Position], is_junction: &[bool]) {
    let last = ring.len() - 1;
    let key = |number: u32| (!is_junction[number as usize], positions[number as usize]);
    let mut least = 0;
    let mut least_key = key(ring[0]);
    for at in 1..last {
        if is_junction[ring[at] as usize] || least_key.0 {
            let other = key(ring[at]);
            if other < least_key {
                (least, least_key) = (at, other);
            }
        }
    }
    ring[..last].rotate_left(least);
    ring[last] = ring[0];
}

// ---- Reduction

/// Twice an area, as the key of a heap: exact where it is `u128`; one of `u64` is the greatest where the area is beyond.
trait Key: Copy + Ord {
    fn new(doubled: u128) -> Self;
    fn doubled(self) -> u128;
}

impl Key for u64 {
    #[inline(always)]
    fn new(doubled: u128) -> u64 {
        doubled.min(u64::MAX as u128) as u64
    }
    fn doubled(self) -> u128 {
        self as u128
    }
}

impl Key for u128 {
    fn new(doubled: u128) -> u128 {
        doubled
    }
    fn doubled(self) -> u128 {
        self
    }
}

#[inline(always)]
fn cross(a: Position, b: Position, c: Position) -> i128 {
    let (ux, uy, vx, vy) = (b.0 - a.0, b.1 - a.1, c.0 - a.0, c.1 - a.1);
    ux as i128 * vy as i128 - vx as i128 * uy as i128
}

/// A binary heap of points by twice an area, position and index, which knows where each point stands in it.
struct Heap<'p, K> {
    points: &'p [Position],
    entries: Vec<(K, u32)>,
    slots: Vec<u32>,
}

impl<K: Key> Heap<'_, K> {
    #[inline(always)]
    fn less(&self, a: (K, u32), b: (K, u32)) -> bool {
        a.0 < b.0 || (a.0 == b.0 && (self.points[a.1 as usize], a.1) < (self.points[b.1 as usize], b.1))
    }

    fn up(&mut self, mut slot: usize) {
        let entry = self.entries[slot];
        while slot > 0 {
            let parent = (slot - 1) / 2;
            let above = self.entries[parent];
            if !self.less(entry, above) {
                break;
            }
            self.entries[slot] = above;
            self.slots[above.1 as usize] = slot as u32;
            slot = parent;
        }
        self.entries[slot] = entry;
        self.slots[entry.1 as usize] = slot as u32;
    }

    fn down(&mut self, mut slot: usize) {
        let entry = self.entries[slot];
        loop {
            let mut child = 2 * slot + 1;
            if child >= self.entries.len() {
                break;
            }
            if child + 1 < self.entries.len() && self.less(self.entries[child + 1], self.entries[child]) {
                child += 1;
            }
            let below = self.entries[child];
            if !self.less(below, entry) {
                break;
            }
            self.entries[slot] = below;
            self.slots[below.1 as usize] = slot as u32;
            slot = child;
        }
        self.entries[slot] = entry;
        self.slots[entry.1 as usize] = slot as u32;
    }

    fn pop(&mut self) {
        self.slots[self.entries[0].1 as usize] = NONE;
        if let Some(last) = self.entries.pop() {
            if !self.entries.is_empty() {
                self.entries[0] = last;
                self.down(0);
            }
        }
    }

    fn update(&mut self, point: u32, key: K, limit: u128) {
        let slot = self.slots[point as usize];
        if slot != NONE {
            let old = self.entries[slot as usize].0;
            self.entries[slot as usize].0 = key;
            if key < old {
                self.up(slot as usize);
            } else {
                self.down(slot as usize);
            }
        } else if key.doubled() < limit {
            self.entries.push((key, point));
            self.up(self.entries.len() - 1);
        }
    }
}

/// Takes out points while the least of them has twice an area under the limit: tells the index of each and its key, and answers
/// which point follows each that is left.
fn eliminated<K: Key>(points: &[Position], limit: u128, mut taken: impl FnMut(u32, K)) -> Vec<u32> {
    let count = points.len() as u32;
    let mut before: Vec<u32> = (0..count).map(|at| at.wrapping_sub(1)).collect();
    let mut after: Vec<u32> = (1..count + 1).collect();
    let mut heap = Heap { points, entries: Vec::<(K, u32)>::new(), slots: vec![NONE; count as usize] };
    let key = |a: u32, b: u32, c: u32| K::new(cross(points[a as usize], points[b as usize], points[c as usize]).unsigned_abs());
    for at in 1..count - 1 {
        let key = key(at - 1, at, at + 1);
        if key.doubled() < limit {
            heap.slots[at as usize] = heap.entries.len() as u32;
            heap.entries.push((key, at));
        }
    }
    for slot in (0..heap.entries.len() / 2).rev() {
        heap.down(slot);
    }
    while let Some(&(least, at)) = heap.entries.first() {
        if least.doubled() >= limit {
            break;
        }
        heap.pop();
        taken(at, least);
        let (left, right) = (before[at as usize], after[at as usize]);
        after[left as usize] = right;
        before[right as usize] = left;
        if left > 0 {
            heap.update(left, key(before[left as usize], left, right), limit);
        }
        if right < count - 1 {
            heap.update(right, key(left, right, after[right as usize]), limit);
        }
    }
    after
}

impl Topology<'_> {
    /// An arc's positions in units.
    fn placed(&self, arc: usize) -> Cow<'_, [Position]> {
        let (start, end) = self.arcs[arc];
        let points = &self.store.points[start as usize..end as usize];
        match self.placing {
            Placing::Units => Cow::Borrowed(points),
            placing => Cow::Owned(points.iter().map(|&point| placing.of(point)).collect()),
        }
    }

    /// Takes out the points under the limit.
    fn reduce(&mut self, limit: u128) {
        for arc in 0..self.arcs.len() {
            let (start, end) = self.arcs[arc];
            if end - start < 3 || limit == 0 {
                continue;
            }
            let points = self.placed(arc);
            if end - start == 3 {
                if cross(points[0], points[1], points[2]).unsigned_abs() < limit {
                    drop(points);
                    self.store.points[start as usize + 1] = self.store.points[start as usize + 2];
                    self.arcs[arc].1 -= 1;
                }
                continue;
            }
            let after = if limit < u64::MAX as u128 {
                eliminated::<u64>(&points, limit, |_, _| {})
            } else {
                eliminated::<u128>(&points, limit, |_, _| {})
            };
            drop(points);
            let points = &mut self.store.points[start as usize..end as usize];
            let (mut from, mut to) = (0, 0);
            while from < points.len() {
                points[to] = points[from];
                to += 1;
                from = after[from] as usize;
            }
            self.arcs[arc].1 = start + to as u32;
        }
    }

    /// Takes points out, so that the greatest threshold is used at which at least this share of them stays; answers the threshold.
    fn reduce_to(&mut self, (p, q): (u64, u64)) -> u128 {
        let mut weights = Vec::new();
        for arc in 0..self.arcs.len() {
            let points = self.placed(arc);
            let first = weights.len();
            weights.resize(first + points.len() - 2, 0u128);
            let mut most = 0;
            eliminated::<u128>(&points, u128::MAX, |at, key| {
                most = most.max(key);
                weights[first + at as usize - 1] = most;
            });
        }
        if weights.is_empty() {
            return 0;
        }
        let kept = (weights.len() as u128 * p as u128).div_ceil(q as u128).max(1) as usize;
        let mut sorted = weights.clone();
        let at = sorted.len() - kept;
        let limit = *sorted.select_nth_unstable(at).1;
        let mut first = 0;
        for arc in &mut self.arcs {
            let points = &mut self.store.points[arc.0 as usize..arc.1 as usize];
            let inner = points.len() - 2;
            let mut to = 1;
            for at in 0..inner {
                if weights[first + at] >= limit {
                    points[to] = points[at + 1];
                    to += 1;
                }
            }
            points[to] = points[inner + 1];
            arc.1 = arc.0 + to as u32 + 1;
            first += inner;
        }
        limit
    }
}

// ---- Dropping

/// A sum that doesn't overflow: the second counts units of 2^128.
#[derive(Clone, Copy, Default)]
struct Wide(i128, i64);

impl Wide {
    fn add(&mut self, value: i128) {
        let (sum, has_overflown) = self.0.overflowing_add(value);
        self.0 = sum;
        self.1 += has_overflown as i64 * value.signum() as i64;
    }

    fn subtract(&mut self, value: i128) {
        let (sum, has_overflown) = self.0.overflowing_sub(value);
        self.0 = sum;
        self.1 -= has_overflown as i64 * value.signum() as i64;
    }
}

impl Topology<'_> {
    /// Marks the lines that have too few positions, and the rings that enclose less than half of this.
    fn drop_small(&mut self, least: u128) {
        let may_join = self.placing.may_join();
        let steps: Vec<u8> = (0..self.arcs.len()).map(|arc| self.steps(arc, may_join)).collect();
        let mut areas = Vec::new();
        if least > 0 {
            areas = (0..self.arcs.len()).map(|arc| {
                let mut sum = Wide::default();
                for pair in self.placed(arc).windows(2) {
                    let ((x, y), (z, w)) = (pair[0], pair[1]);
                    sum.add(x as i128 * w as i128 - z as i128 * y as i128);
                }
                sum
            }).collect();
        }
        for line in &mut self.store.lines {
            if line.cause != Cause::Kept {
                continue;
            }
            let uses = &self.store.uses[line.start as usize..line.end as usize];
            let mut count = 0;
            for &used in uses {
                count += steps[(used ^ (used >> 31)) as usize];
                if count >= 3 {
                    break;
                }
            }
            let mut is_small = count < if line.is_ring { 3 } else { 1 };
            if line.is_ring && least > 0 && !is_small {
                let mut sum = Wide::default();
                for &used in uses {
                    let area = areas[(used ^ (used >> 31)) as usize];
                    if used < 0 {
                        sum.subtract(area.0);
                        sum.1 -= area.1;
                    } else {
                        sum.add(area.0);
                        sum.1 += area.1;
                    }
                }
                is_small = sum.1 == 0 && sum.0.unsigned_abs() < least;
            }
            if is_small {
                line.cause = Cause::Small;
            }
        }
    }

    /// How many neighbours in an arc are different, up to three.
    fn steps(&self, arc: usize, may_join: bool) -> u8 {
        let (start, end) = self.arcs[arc];
        let points = &self.store.points[start as usize..end as usize];
        let differ = |pair: &&[Position]| {
            if may_join { self.placing.of(pair[0]) != self.placing.of(pair[1]) } else { pair[0] != pair[1] }
        };
        points.windows(2).filter(differ).take(3).count() as u8
    }

    /// Marks the rings of polygons whose outer ring is dropped, and writes a line for each line that is dropped.
    fn drop_rest(&mut self) -> (u64, Vec<u8>) {
        let mut dropper = Dropper { lines: &mut self.store.lines, polygons: &self.store.polygons, count: 0, out: Vec::new(), path: Vec::new() };
        for (layer, object) in self.objects.iter().enumerate() {
            for (number, feature) in object.features.iter().enumerate() {
                dropper.shape(&feature.shape, &|out| {
                    out.extend_from_slice(b"drop ");
                    put_number(out, layer as u64);
                    out.push(b' ');
                    put_number(out, number as u64);
                    out.push(b' ');
                });
            }
        }
        (dropper.count, dropper.out)
    }
}

struct Dropper<'s> {
    lines: &'s mut [Line],
    polygons: &'s [(u32, u32)],
    count: u64,
    out: Vec<u8>,
    path: Vec<usize>,
}

impl Dropper<'_> {
    fn shape(&mut self, shape: &Shape, begin: &dyn Fn(&mut Vec<u8>)) {
        match *shape {
            Shape::Null | Shape::Point(_) | Shape::MultiPoint(..) => {}
            Shape::Line(line) => self.tell(line, begin),
            Shape::MultiLine(start, end) => {
                for line in start..end {
                    self.numbered((line - start) as usize, |dropper| dropper.tell(line, begin));
                }
            }
            Shape::Polygon(start, end) => self.polygon((start, end), begin),
            Shape::MultiPolygon(start, end) => {
                for number in start..end {
                    let polygon = self.polygons[number as usize];
                    self.numbered((number - start) as usize, |dropper| dropper.polygon(polygon, begin));
                }
            }
            Shape::Collection(ref shapes) => {
                for (number, shape) in shapes.iter().enumerate() {
                    self.numbered(number, |dropper| dropper.shape(shape, begin));
                }
            }
        }
    }

    fn numbered(&mut self, number: usize, inside: impl FnOnce(&mut Self)) {
        self.path.push(number);
        inside(self);
        self.path.pop();
    }

    fn polygon(&mut self, (start, end): (u32, u32), begin: &dyn Fn(&mut Vec<u8>)) {
        let is_dropped = self.lines[start as usize].cause != Cause::Kept;
        for line in start..end {
            if is_dropped && self.lines[line as usize].cause == Cause::Kept {
                self.lines[line as usize].cause = Cause::Outer;
            }
            self.numbered((line - start) as usize, |dropper| dropper.tell(line, begin));
        }
    }

    fn tell(&mut self, line: u32, begin: &dyn Fn(&mut Vec<u8>)) {
        let cause: &[u8] = match self.lines[line as usize].cause {
            Cause::Collapsed => b" collapsed\n",
            Cause::Outer => b" outer\n",
            Cause::Small => b" small\n",
            Cause::Kept | Cause::Unread => return,
        };
        self.count += 1;
        begin(&mut self.out);
        for (at, &number) in self.path.iter().enumerate() {
            if at > 0 {
                self.out.push(b'.');
            }
            put_number(&mut self.out, number as u64);
        }
        if self.path.is_empty() {
            self.out.push(b'-');
        }
        self.out.extend_from_slice(cause);
    }
}

// ---- Writing

fn put_number(out: &mut Vec<u8>, mut number: u64) {
    let mut digits = [0u8; 20];
    let mut at = digits.len();
    loop {
        at -= 1;
        digits[at] = b'0' + (number % 10) as u8;
        number /= 10;
        if number == 0 {
            break;
        }
    }
    out.extend_from_slice(&digits[at..]);
}

fn put_whole(out: &mut Vec<u8>, number: i64) {
    if number < 0 {
        out.push(b'-');
    }
    put_number(out, number.unsigned_abs());
}

const PAIRS: [u8; 200] = {
    let mut pairs = [0; 200];
    let mut at = 0;
    while at < 100 {
        pairs[2 * at] = b'0' + (at / 10) as u8;
        pairs[2 * at + 1] = b'0' + (at % 10) as u8;
        at += 1;
    }
    pairs
};

/// The decimal of units.
#[inline]
fn put_units(out: &mut Vec<u8>, units: i64) {
    let magnitude = units.unsigned_abs();
    let (mut whole, rest) = (magnitude / 1_000_000_000, (magnitude % 1_000_000_000) as u32);
    let mut text = [0u8; 32];
    let mut at = 20;
    loop {
        at -= 1;
        text[at] = b'0' + (whole % 10) as u8;
        whole /= 10;
        if whole == 0 {
            break;
        }
    }
    if units < 0 {
        at -= 1;
        text[at] = b'-';
    }
    let mut end = 20;
    if rest != 0 {
        text[20] = b'.';
        let (high, low) = (rest / 100_000, rest % 100_000);
        // high has four digits, and low five.
        let (a, b) = (high as usize / 100 * 2, high as usize % 100 * 2);
        text[21] = PAIRS[a];
        text[22] = PAIRS[a + 1];
        text[23] = PAIRS[b];
        text[24] = PAIRS[b + 1];
        let (c, d, e) = (low as usize / 1000 * 2, low as usize / 10 % 100 * 2, low % 10);
        text[25] = PAIRS[c];
        text[26] = PAIRS[c + 1];
        text[27] = PAIRS[d];
        text[28] = PAIRS[d + 1];
        text[29] = b'0' + e as u8;
        end = 30;
        while text[end - 1] == b'0' {
            end -= 1;
        }
    }
    out.extend_from_slice(&text[at..end]);
}

fn put_position(out: &mut Vec<u8>, (x, y): Position, put: fn(&mut Vec<u8>, i64)) {
    out.push(b'[');
    put(out, x);
    out.push(b',');
    put(out, y);
    out.push(b']');
}

/// A JSON text of these characters.
fn put_text(out: &mut Vec<u8>, characters: &[u8]) {
    out.push(b'"');
    for &byte in characters {
        match byte {
            b'"' => out.extend_from_slice(b"\\\""),
            b'\\' => out.extend_from_slice(b"\\\\"),
            8 => out.extend_from_slice(b"\\b"),
            12 => out.extend_from_slice(b"\\f"),
            b'\n' => out.extend_from_slice(b"\\n"),
            b'\r' => out.extend_from_slice(b"\\r"),
            b'\t' => out.extend_from_slice(b"\\t"),
            0..=0x1f => out.extend_from_slice(format!("\\u{byte:04x}").as_bytes()),
            _ => out.push(byte),
        }
    }
    out.push(b'"');
}

/// A value in normal form.
fn put_value(out: &mut Vec<u8>, span: &[u8]) {
    let (mut from, mut at) = (0, 0);
    while at < span.len() {
        match span[at] {
            b'"' => {
                let start = at + 1;
                let mut has_escapes = false;
                at = start;
                while span[at] != b'"' {
                    if span[at] == b'\\' {
                        has_escapes = true;
                        at += 1;
                    }
                    at += 1;
                }
                at += 1;
                if has_escapes {
                    out.extend_from_slice(&span[from..start - 1]);
                    put_text(out, &unescaped(&span[start..at - 1]));
                    from = at;
                }
            }
            b' ' | b'\n' | b'\r' | b'\t' => {
                out.extend_from_slice(&span[from..at]);
                at += 1;
                from = at;
            }
            _ => at += 1,
        }
    }
    out.extend_from_slice(&span[from..]);
}

/// Writes what `put` writes of each item between these brackets, with commas between.
fn put_list<T>(out: &mut Vec<u8>, items: impl Iterator<Item = T>, mut put: impl FnMut(&mut Vec<u8>, T)) {
    out.push(b'[');
    let start = out.len();
    for item in items {
        if out.len() > start {
            out.push(b',');
        }
        put(out, item);
    }
    out.push(b']');
}

fn put_member(out: &mut Vec<u8>, name: &[u8], span: &[u8]) {
    if !span.is_empty() {
        out.extend_from_slice(name);
        put_value(out, span);
    }
}

/// Writes the geometries of a topology, with arc indexes or with coordinates.
struct Writer<'t> {
    store: &'t Store,
    arcs: &'t [(u32, u32)],
    /// The new numbers of the arcs.
    numbers: &'t [i32],
    has_arcs: bool,
    put: fn(&mut Vec<u8>, i64),
}

impl Writer<'_> {
    fn is_kept(&self, line: u32) -> bool {
        self.store.lines[line as usize].cause == Cause::Kept
    }

    /// Whether anything is left of a shape.
    fn is_left(&self, shape: &Shape) -> bool {
        match *shape {
            Shape::Null => false,
            Shape::Line(line) | Shape::Polygon(line, _) => self.is_kept(line),
            Shape::MultiLine(start, end) => (start..end).any(|line| self.is_kept(line)),
            Shape::MultiPolygon(start, end) => (start..end).any(|polygon| self.is_kept(self.store.polygons[polygon as usize].0)),
            _ => true,
        }
    }

    /// The type and the parts of a shape of which something is left; `middle` stands between them.
    fn shape(&self, out: &mut Vec<u8>, shape: &Shape, middle: &dyn Fn(&mut Vec<u8>)) {
        let name: &[u8] = match shape {
            _ if !self.is_left(shape) => {
                out.extend_from_slice(b"{\"type\":null");
                middle(out);
                out.push(b'}');
                return;
            }
            Shape::Null => b"",
            Shape::Point(_) => b"Point",
            Shape::MultiPoint(..) => b"MultiPoint",
            Shape::Line(_) => b"LineString",
            Shape::MultiLine(..) => b"MultiLineString",
            Shape::Polygon(..) => b"Polygon",
            Shape::MultiPolygon(..) => b"MultiPolygon",
            Shape::Collection(_) => b"GeometryCollection",
        };
        out.extend_from_slice(b"{\"type\":\"");
        out.extend_from_slice(name);
        out.push(b'"');
        middle(out);
        let is_line = matches!(shape, Shape::Line(_) | Shape::MultiLine(..) | Shape::Polygon(..) | Shape::MultiPolygon(..));
        let part: &[u8] = match shape {
            Shape::Collection(_) => b",\"geometries\":",
            _ if is_line && self.has_arcs => b",\"arcs\":",
            _ => b",\"coordinates\":",
        };
        out.extend_from_slice(part);
        match *shape {
            Shape::Null => {}
            Shape::Point(point) => put_position(out, self.store.singles[point as usize], self.put),
            Shape::MultiPoint(start, end) => {
                put_list(out, self.store.singles[start as usize..end as usize].iter(), |out, &point| put_position(out, point, self.put));
            }
            Shape::Line(line) => self.line(out, line),
            Shape::MultiLine(start, end) | Shape::Polygon(start, end) => self.lines(out, (start, end)),
            Shape::MultiPolygon(start, end) => {
                let polygons = self.store.polygons[start as usize..end as usize].iter();
                put_list(out, polygons.filter(|polygon| self.is_kept(polygon.0)), |out, &polygon| self.lines(out, polygon));
            }
            Shape::Collection(ref shapes) => {
                put_list(out, shapes.iter().filter(|shape| self.is_left(shape)), |out, shape| self.shape(out, shape, &|_| {}));
            }
        }
        out.push(b'}');
    }

    fn lines(&self, out: &mut Vec<u8>, (start, end): (u32, u32)) {
        put_list(out, (start..end).filter(|&line| self.is_kept(line)), |out, line| self.line(out, line));
    }

    fn line(&self, out: &mut Vec<u8>, line: u32) {
        let line = &self.store.lines[line as usize];
        let uses = &self.store.uses[line.start as usize..line.end as usize];
        if self.has_arcs {
            return put_list(out, uses.iter(), |out, &used| {
                let number = self.numbers[(used ^ (used >> 31)) as usize];
                put_whole(out, (number ^ (used >> 31)) as i64);
            });
        }
        out.push(b'[');
        let mut count = 0;
        let mut put = |out: &mut Vec<u8>, point: Position| {
            if count > 0 {
                out.push(b',');
            }
            put_position(out, point, put_units);
            count += 1;
        };
        let skipped = |at: usize| (at > 0) as usize;
        let mut first = None;
        for (at, &used) in uses.iter().enumerate() {
            let (start, end) = self.arcs[(used ^ (used >> 31)) as usize];
            let points = &self.store.points[start as usize..end as usize];
            if used < 0 {
                first = first.or(points.last());
                points.iter().rev().skip(skipped(at)).for_each(|&point| put(out, point));
            } else {
                first = first.or(points.first());
                points[skipped(at)..].iter().for_each(|&point| put(out, point));
            }
        }
        if line.is_ring {
            if let Some(&first) = first {
                for _ in count..4 {
                    out.push(b',');
                    put_position(out, first, put_units);
                }
            }
        }
        out.push(b']');
    }
}

/// What is to be reduced and dropped.
struct Limits {
    area: u128,
    share: Option<(u64, u64)>,
    ring_area: u128,
}

impl Topology<'_> {
    /// Reduces and drops, and answers the topology's text and the report.
    fn finish(mut self, limits: &Limits) -> (Vec<u8>, Vec<u8>) {
        let counts: Vec<u32> = self.arcs.iter().map(|arc| arc.1 - arc.0).collect();
        let chosen = limits.share.map(|share| self.reduce_to(share));
        if chosen.is_none() {
            self.reduce(limits.area);
        }
        self.drop_small(limits.ring_area);
        let (dropped, drops) = self.drop_rest();
        let mut numbers = vec![-1; self.arcs.len()];
        for line in self.store.lines.iter().filter(|line| line.cause == Cause::Kept) {
            for &used in &self.store.uses[line.start as usize..line.end as usize] {
                numbers[(used ^ (used >> 31)) as usize] = 0;
            }
        }
        let (mut arcs, mut kept, mut removed) = (0, 0u64, 0u64);
        let (mut low, mut high) = ((i64::MAX, i64::MAX), (i64::MIN, i64::MIN));
        let mut stretch = |&(x, y): &Position| {
            low = (low.0.min(x), low.1.min(y));
            high = (high.0.max(x), high.1.max(y));
        };
        self.store.singles.iter().for_each(&mut stretch);
        for ((number, &(start, end)), count) in numbers.iter_mut().zip(&self.arcs).zip(counts) {
            if *number == 0 {
                *number = arcs;
                arcs += 1;
                kept += (end - start) as u64;
                removed += (count - (end - start)) as u64;
                self.store.points[start as usize..end as usize].iter().for_each(&mut stretch);
            }
        }
        let mut report = Vec::new();
        let mut tell = |name: &str, count: u128, more: &[u8]| {
            report.extend_from_slice(format!("{name} {count}\n").as_bytes());
            report.extend_from_slice(more);
        };
        tell("rounded", self.store.rounded as u128, b"");
        tell("extra", self.store.extra as u128, b"");
        tell("empty", self.store.empty as u128, b"");
        tell("dropped", dropped as u128, &drops);
        tell("arcs", arcs as u128, b"");
        tell("kept", kept as u128, b"");
        tell("removed", removed as u128, b"");
        if let Some(chosen) = chosen {
            tell("chosen", chosen, b"");
        }
        let mut out = Vec::with_capacity(kept as usize * if self.texts.is_some() { 14 } else { 26 } + 1024);
        self.put(&mut out, &numbers, low, high);
        (out, report)
    }

    fn put(&self, out: &mut Vec<u8>, numbers: &[i32], low: Position, high: Position) {
        out.extend_from_slice(b"{\"type\":\"Topology\",");
        if let Some([a, b, c, d]) = &self.texts {
            out.extend_from_slice(b"\"transform\":{\"scale\":[");
            out.extend_from_slice(a);
            out.push(b',');
            out.extend_from_slice(b);
            out.extend_from_slice(b"],\"translate\":[");
            out.extend_from_slice(c);
            out.push(b',');
            out.extend_from_slice(d);
            out.extend_from_slice(b"]},");
        }
        if low.0 <= high.0 {
            let (one, other) = (self.placing.of(low), self.placing.of(high));
            out.extend_from_slice(b"\"bbox\":");
            let bounds = [one.0.min(other.0), one.1.min(other.1), one.0.max(other.0), one.1.max(other.1)];
            put_list(out, bounds.into_iter(), put_units);
            out.push(b',');
        }
        let is_gridded = self.texts.is_some();
        let put = if is_gridded { put_whole } else { put_units };
        let writer = Writer { store: &self.store, arcs: &self.arcs, numbers, has_arcs: true, put };
        out.extend_from_slice(b"\"objects\":{");
        for (number, object) in self.objects.iter().enumerate() {
            if number > 0 {
                out.push(b',');
            }
            out.extend_from_slice(&object.name);
            out.push(b':');
            let put = |out: &mut Vec<u8>, feature: &Feature| {
                writer.shape(out, &feature.shape, &|out| {
                    put_member(out, b",\"id\":", feature.id);
                    put_member(out, b",\"properties\":", feature.properties);
                });
            };
            if object.is_collection {
                out.extend_from_slice(b"{\"type\":\"GeometryCollection\",\"geometries\":");
                put_list(out, object.features.iter(), put);
                out.push(b'}');
            } else {
                put(out, &object.features[0]);
            }
        }
        out.extend_from_slice(b"},\"arcs\":");
        let written = self.arcs.iter().zip(numbers).filter(|(_, &number)| number >= 0);
        put_list(out, written, |out, (&(start, end), _)| {
            let points = &self.store.points[start as usize..end as usize];
            let mut last = (0, 0);
            put_list(out, points.iter(), |out, &point| {
                if is_gridded {
                    put_position(out, (point.0 - last.0, point.1 - last.1), put_whole);
                    last = point;
                } else {
                    put_position(out, point, put_units);
                }
            });
        });
        out.push(b'}');
    }
}

// ---- Commands

fn build<'a>(files: &'a [Vec<u8>], names: &[String], grid: Option<u64>, is_exact: bool, limits: &Limits) -> Answer<(Vec<u8>, Vec<u8>)> {
    let mut store = Store::default();
    let mut objects: Vec<Object<'a>> = Vec::new();
    for (bytes, name) in files.iter().zip(names) {
        let features = Reader::new(bytes, false, is_exact)?.layer(&mut store)?;
        let mut text = Vec::new();
        put_text(&mut text, name.as_bytes());
        if name.is_empty() || objects.iter().any(|object| object.name == text) {
            return Err("a name that is empty or stands twice");
        }
        objects.push(Object { name: text, is_collection: true, features });
    }
    let (mut placing, mut texts) = (Placing::Units, None);
    if let Some(cells) = grid {
        if let Some((steps, least)) = snap(&mut store, cells) {
            placing = Placing::Cells(steps, least);
            texts = Some([steps.0, steps.1, least.0, least.1].map(|number| {
                let mut text = Vec::new();
                put_units(&mut text, number);
                Cow::Owned(text)
            }));
        }
    }
    let arcs = cut(&mut store)?;
    Ok(Topology { store, arcs, objects, texts, placing }.finish(limits))
}

/// Puts all positions into cells, and answers the steps and the least position.
fn snap(store: &mut Store, cells: u64) -> Option<(Position, Position)> {
    let (mut low, mut high) = ((i64::MAX, i64::MAX), (i64::MIN, i64::MIN));
    for &(x, y) in store.points.iter().chain(&store.singles) {
        low = (low.0.min(x), low.1.min(y));
        high = (high.0.max(x), high.1.max(y));
    }
    if low.0 > high.0 {
        return None;
    }
    let step = |low: i64, high: i64| ((high - low) as u64).div_ceil(cells - 1).max(1);
    let steps = (step(low.0, high.0), step(low.1, high.1));
    let cell = |at: i64, low: i64, step: u64| ((2 * (at - low) as u64 + step) / (2 * step)) as i64;
    for point in store.points.iter_mut().chain(&mut store.singles) {
        *point = (cell(point.0, low.0, steps.0), cell(point.1, low.1, steps.1));
    }
    Some(((steps.0 as i64, steps.1 as i64), low))
}

fn geo(bytes: &[u8], name: &str) -> Answer<Vec<u8>> {
    let mut topology = Topology::read(bytes)?;
    let mut text = Vec::new();
    put_text(&mut text, name.as_bytes());
    let object = topology.objects.iter().position(|object| object.name == text).ok_or("no such object")?;
    if topology.texts.is_some() {
        let placing = topology.placing;
        let Store { points, singles, .. } = &mut topology.store;
        for point in points.iter_mut().chain(singles) {
            *point = placing.of(*point);
        }
    }
    let object = &topology.objects[object];
    let writer = Writer { store: &topology.store, arcs: &topology.arcs, numbers: &[], has_arcs: false, put: put_units };
    let mut out = Vec::with_capacity(2 * bytes.len() + 1024);
    let put = |out: &mut Vec<u8>, feature: &Feature| {
        out.extend_from_slice(b"{\"type\":\"Feature\"");
        put_member(out, b",\"id\":", feature.id);
        put_member(out, b",\"properties\":", if feature.properties.is_empty() { b"null" } else { feature.properties });
        out.extend_from_slice(b",\"geometry\":");
        if writer.is_left(&feature.shape) {
            writer.shape(out, &feature.shape, &|_| {});
        } else {
            out.extend_from_slice(b"null");
        }
        out.push(b'}');
    };
    if object.is_collection {
        out.extend_from_slice(b"{\"type\":\"FeatureCollection\",\"features\":");
        put_list(&mut out, object.features.iter(), put);
        out.push(b'}');
    } else {
        put(&mut out, &object.features[0]);
    }
    Ok(out)
}

fn stat(bytes: &[u8]) -> Answer<Vec<u8>> {
    let topology = Topology::read(bytes)?;
    let mut out = format!("objects {}\n", topology.objects.len()).into_bytes();
    for object in &topology.objects {
        out.extend_from_slice(&object.name);
        out.extend_from_slice(format!(" {}\n", object.features.len()).as_bytes());
    }
    out.extend_from_slice(format!("arcs {}\npositions {}\n", topology.arcs.len(), topology.store.points.len()).as_bytes());
    out.extend_from_slice(if topology.texts.is_some() { b"grid yes\n" } else { b"grid no\n" });
    Ok(out)
}

const USAGE: Fault = "usage: plain build [--grid N] [--min-area A | --keep P/Q] [--min-ring-area B] [--exact] NAME=PATH .. | \
simplify [--min-area A | --keep P/Q] [--min-ring-area B] FILE | geo --object NAME FILE | stat FILE";

/// Twice an area in square units, of the text of one in square units of the coordinates.
fn doubled_area(text: &str) -> Answer<u128> {
    let mut reader = Reader::new(text.as_bytes(), false, false)?;
    if reader.at > 0 || reader.number()?.len() < text.len() {
        return Err("bad area");
    }
    match decimal(text.as_bytes(), 18) {
        Some((area @ 0..=1_000_000_000_000_000_000_000_000_000_000_000_000, false)) => Ok(2 * area as u128),
        _ => Err("bad area"),
    }
}

fn natural(text: &str, limit: u64) -> Option<u64> {
    let is_right = !text.is_empty() && text.bytes().all(is_digit);
    is_right.then(|| text.parse().unwrap_or(u64::MAX)).filter(|&number| number <= limit)
}

fn share(text: &str) -> Answer<(u64, u64)> {
    let (p, q) = text.split_once('/').ok_or("bad share")?;
    let q = natural(q, 1_000_000_000).filter(|&q| q > 0).ok_or("bad share")?;
    Ok((natural(p, q).ok_or("bad share")?, q))
}

fn open(path: &str) -> Answer<Vec<u8>> {
    std::fs::read(path).map_err(|_| "a file can't be read")
}

fn run(words: Vec<String>) -> Answer<(Vec<u8>, Vec<u8>)> {
    let mut options: HashMap<String, String> = HashMap::new();
    let mut rest = Vec::new();
    let mut words = words.into_iter();
    let command = words.next().ok_or(USAGE)?;
    let known: &[&str] = match command.as_str() {
        "build" => &["--grid", "--min-area", "--keep", "--min-ring-area", "--exact"],
        "simplify" => &["--min-area", "--keep", "--min-ring-area"],
        "geo" => &["--object"],
        "stat" => &[],
        _ => return Err(USAGE),
    };
    let mut are_options = true;
    while let Some(word) = words.next() {
        if are_options && word == "--" {
            are_options = false;
        } else if are_options && word.starts_with('-') {
            let value = if word == "--exact" { String::new() } else { words.next().ok_or(USAGE)? };
            if !known.contains(&word.as_str()) || options.insert(word, value).is_some() {
                return Err(USAGE);
            }
        } else {
            rest.push(word);
        }
    }
    let area = |name: &str| options.get(name).map_or(Ok(0), |text| doubled_area(text));
    let limits = Limits {
        area: area("--min-area")?,
        share: options.get("--keep").map(|text| share(text)).transpose()?,
        ring_area: area("--min-ring-area")?,
    };
    if limits.share.is_some() && options.contains_key("--min-area") {
        return Err(USAGE);
    }
    if rest.is_empty() || (command != "build" && rest.len() > 1) {
        return Err(USAGE);
    }
    if command != "build" {
        let bytes = open(&rest[0])?;
        return match command.as_str() {
            "simplify" => Ok(Topology::read(&bytes)?.finish(&limits)),
            "geo" => Ok((geo(&bytes, options.get("--object").ok_or(USAGE)?)?, Vec::new())),
            _ => Ok((stat(&bytes)?, Vec::new())),
        };
    }
    let grid = match options.get("--grid") {
        Some(text) => Some(natural(text, 1_000_000_000).filter(|&cells| cells > 1).ok_or(USAGE)?),
        None => None,
    };
    let (mut names, mut files) = (Vec::new(), Vec::new());
    for word in &rest {
        let (name, path) = word.split_once('=').ok_or("a layer has no =")?;
        names.push(name.to_string());
        files.push(open(path)?);
    }
    build(&files, &names, grid, options.contains_key("--exact"), &limits)
}

fn main() -> ExitCode {
    let words = std::env::args_os().skip(1).map(|word| word.into_string().map_err(|_| "a word is not UTF-8")).collect::<Answer<Vec<_>>>();
    match words.and_then(run) {
        Ok((out, report)) => {
            if std::io::stdout().lock().write_all(&out).is_err() {
                eprintln!("error: writing failed");
                return ExitCode::from(3);
            }
            let _ = std::io::stderr().lock().write_all(&report);
            ExitCode::SUCCESS
        }
        Err(fault) => {
            eprintln!("error: {fault}");
            ExitCode::from(1)
        }
    }
}
