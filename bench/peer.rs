//! The program `report`, written a second time from the rules alone, in plain
//! Rust: it reads a file of sheets, enters each sheet into an empty library,
//! prints what became of it, and at the end prints every card.
//!
//! Build with `rustc -O peer.rs`. The words `memory` and `merge` choose the
//! other measure and the other reducer.

use std::array::from_fn;
use std::env;
use std::fmt::Display;
use std::io::{self, BufWriter, Read, Write};
use std::mem::swap;

const INPUTS: usize = 8; // inputs of a block at most
const OUTPUTS: usize = 8; // outputs of a block at most
const LONGEST: usize = 16; // entries of a list at most
const BLOCKS: usize = 32; // index rows, and cards that there is room for
const SHELF: usize = 32_768; // bytes of sheets
const NONE: u8 = 255; // no algorithm, no output, no event, or outside

// ---------------------------------------------------------------- measures
/// What is counted as the cost of a run. One amount covers another if it is
/// not below it, and the higher of two is the greater.
trait Measure: Copy + Ord + Default + Display {
    const WIDTH: usize;
    fn plus(self, other: Self) -> Self;
    fn read(bytes: &[u8]) -> Self;
}

/// Ticks of time: the sum stays at the greatest amount once it reaches it.
impl Measure for u32 {
    const WIDTH: usize = 4;
    #[inline]
    fn plus(self, other: u32) -> u32 {
        self.saturating_add(other)
    }
    fn read(bytes: &[u8]) -> u32 {
        bytes.iter().fold(0, |sum, &byte| sum << 8 | u32::from(byte))
    }
}

/// Bytes of memory in use: the sum is the greater of the two.
impl Measure for u16 {
    const WIDTH: usize = 2;
    #[inline]
    fn plus(self, other: u16) -> u16 {
        self.max(other)
    }
    fn read(bytes: &[u8]) -> u16 {
        bytes.iter().fold(0, |sum, &byte| sum << 8 | u16::from(byte))
    }
}

// ------------------------------------------------------- entries and lists
/// An amount and how often each output is sent, 255 for 255 or more.
#[derive(Clone, Copy, Default, PartialEq, Eq)]
struct Entry<M> {
    amount: M,
    counts: [u8; OUTPUTS],
}

type List<M> = Vec<Entry<M>>;

impl<M: Measure> Entry<M> {
    #[inline]
    fn plus(&self, other: &Self) -> Self {
        let mut sum = Entry { amount: self.amount.plus(other.amount), counts: [0; OUTPUTS] };
        for output in 0..OUTPUTS {
            sum.counts[output] = self.counts[output].saturating_add(other.counts[output]);
        }
        sum
    }

    #[inline]
    fn higher(&self, other: &Self) -> Self {
        let count = |output: usize| self.counts[output].max(other.counts[output]);
        Entry { amount: self.amount.max(other.amount), counts: from_fn(count) }
    }

    /// No early end over the counts: eight bytes are compared at once.
    #[inline]
    fn covers(&self, other: &Self) -> bool {
        let counts = self.counts.iter().zip(&other.counts);
        (self.amount >= other.amount) & counts.fold(true, |all, (mine, its)| all & (mine >= its))
    }
}

/// Joining: the sums of each entry of `a`, in order, with each of `b`, in order.
#[inline]
fn join<M: Measure>(a: &[Entry<M>], b: &[Entry<M>], sums: &mut List<M>) {
    sums.clear();
    for one in a {
        sums.extend(b.iter().map(|other| one.plus(other)));
    }
}

/// What makes a list shorter and still covers every entry of it.
trait Reducer {
    fn reduce<M: Measure>(list: &mut List<M>);
}

struct Keep;
struct Merge;

impl Reducer for Keep {
    /// Each entry is held against those kept before it: it is dropped if one of
    /// them covers it (an equal one does), and otherwise drops those it covers.
    fn reduce<M: Measure>(list: &mut List<M>) {
        let mut kept = 0;
        for next in 0..list.len() {
            let entry = list[next];
            if list[..kept].iter().any(|earlier| earlier.covers(&entry)) {
                continue;
            }
            let mut left = 0;
            for earlier in 0..kept {
                if !entry.covers(&list[earlier]) {
                    list[left] = list[earlier];
                    left += 1;
                }
            }
            list[left] = entry;
            kept = left + 1;
        }
        list.truncate(kept);
    }
}

impl Reducer for Merge {
    fn reduce<M: Measure>(list: &mut List<M>) {
        let merged = list.iter().fold(list[0], |high, entry| high.higher(entry));
        list.truncate(1);
        list[0] = merged;
    }
}

// ---------------------------------------------------------------- refusals
/// Why, at which level (1 sheet, 2 chart, 3 network, 4 library), and where.
struct Refusal {
    number: u8,
    level: u8,
    place: usize,
}

fn refuse<T>(number: u8, level: u8, place: usize) -> Result<T, Refusal> {
    Err(Refusal { number, level, place })
}

/// Refusal 10 for a reduced list of more than 16 entries.
#[inline]
fn fits<M>(list: &List<M>, level: u8, place: usize) -> Result<(), Refusal> {
    if list.len() > LONGEST {
        return refuse(10, level, place);
    }
    Ok(())
}

// ------------------------------------------------------- fields and sheets
struct Field<'a> {
    tag: u8,
    at: usize,
    body: &'a [u8],
}

impl Field<'_> {
    fn end(&self) -> usize {
        self.at + 3 + self.body.len()
    }
}

/// The field that begins at this offset, or none if the bytes end within it.
fn field_at(bytes: &[u8], at: usize) -> Option<Field<'_>> {
    let head = bytes.get(at..at + 3)?;
    let length = usize::from(u16::from_be_bytes([head[1], head[2]]));
    let body = bytes.get(at + 3..at + 3 + length)?;
    Some(Field { tag: head[0], at, body })
}

#[derive(Clone, Copy, PartialEq)]
enum Kind {
    Basic,
    Service,
    Composite,
}

#[derive(Clone, Copy)]
struct Interface {
    kind: Kind,
    inputs: usize,
    outputs: usize,
}

/// A sheet that passed checks 1 and 2; its fields without the interface.
struct Sheet<'a> {
    face: Interface,
    fields: Vec<Field<'a>>,
}

impl<'a> Sheet<'a> {
    /// Checks 1 and 2: the framing, then what may follow what.
    fn open(bytes: &'a [u8], width: usize) -> Result<Self, Refusal> {
        let mut fields = Vec::new();
        let mut at = 0;
        while at < bytes.len() {
            let Some(field) = field_at(bytes, at) else { return refuse(1, 1, at) };
            at = field.end();
            fields.push(field);
        }
        let Some(face) = fields.first().and_then(interface) else { return refuse(2, 1, 0) };
        fields.remove(0);
        let mut form = Form { face, width, seen: [0; 8], entries: vec![0; face.inputs] };
        for field in &fields {
            if !form.follows(field) {
                return refuse(2, 1, field.at);
            }
            form.note(field);
        }
        if !form.complete() {
            return refuse(2, 1, bytes.len());
        }
        Ok(Sheet { face, fields })
    }

    /// The contents of the fields of one tag, in order.
    fn bodies(&self, tag: u8) -> impl Iterator<Item = &'a [u8]> + '_ {
        self.fields.iter().filter(move |field| field.tag == tag).map(|field| field.body)
    }
}

fn interface(field: &Field) -> Option<Interface> {
    let (1, &[kind @ 1..=3, inputs @ 1..=8, outputs @ 0..=8]) = (field.tag, field.body) else {
        return None;
    };
    let kind = [Kind::Basic, Kind::Service, Kind::Composite][usize::from(kind) - 1];
    Some(Interface { kind, inputs: inputs.into(), outputs: outputs.into() })
}

/// What check 2 remembers of the fields before.
struct Form {
    face: Interface,
    width: usize,
    seen: [usize; 8],    // fields of each tag
    entries: Vec<usize>, // service entries of each input
}

impl Form {
    fn follows(&self, field: &Field) -> bool {
        let (length, seen) = (field.body.len(), &self.seen);
        match (self.face.kind, field.tag) {
            (Kind::Basic, 2) => {
                let whole = length % self.width == 0 && length / self.width <= 16;
                whole && seen[2] == 0 && seen[3] == 0 && seen[4] == 0
            }
            (Kind::Basic, 3) => {
                let whole = length % 2 == 0 && length / 2 <= 4;
                whole && seen[2] > 0 && seen[3] < 32 && seen[4] == 0
            }
            (Kind::Basic, 4) => length == 3 && seen[2] > 0 && seen[3] > 0 && seen[4] < 64,
            (Kind::Service, 5) => {
                let whole = length == 1 + self.width + self.face.outputs;
                whole && self.entries.get(event_of(field)).is_none_or(|&many| many < LONGEST)
            }
            (Kind::Composite, 6) => length == 1 && seen[6] < 16 && seen[7] == 0,
            (Kind::Composite, 7) => length == 4 && seen[6] > 0 && seen[7] < 64,
            _ => false,
        }
    }

    fn note(&mut self, field: &Field) {
        self.seen[usize::from(field.tag)] += 1;
        if field.tag == 5 && event_of(field) < self.entries.len() {
            self.entries[event_of(field)] += 1;
        }
    }

    fn complete(&self) -> bool {
        match self.face.kind {
            Kind::Basic => self.seen[2] > 0 && self.seen[3] > 0,
            Kind::Service => self.entries.iter().all(|&many| many > 0),
            Kind::Composite => self.seen[6] > 0,
        }
    }
}

/// The event of a service entry.
fn event_of(field: &Field) -> usize {
    usize::from(field.body[0])
}

// ------------------------------------------------ basic and service blocks
/// Check 5 of a basic or a service sheet: each number names something.
fn check_names(sheet: &Sheet, width: usize) -> Result<(), Refusal> {
    let algorithms = sheet.bodies(2).map(|body| body.len() / width).sum();
    let states = sheet.bodies(3).count();
    let Interface { inputs, outputs, .. } = sheet.face;
    let below = |number: u8, limit: usize| usize::from(number) < limit;
    let maybe = |number: u8, limit: usize| number == NONE || below(number, limit);
    for field in &sheet.fields {
        let body = field.body;
        let named = match field.tag {
            3 => body.chunks(2).all(|act| maybe(act[0], algorithms) && maybe(act[1], outputs)),
            4 => below(body[0], states) && below(body[1], states) && maybe(body[2], inputs),
            5 => below(body[0], inputs),
            _ => true,
        };
        if !named {
            return refuse(5, 1, field.at);
        }
    }
    Ok(())
}

struct Transition {
    from: usize,
    to: usize,
    event: u8,
}

/// The chart of a basic block: what each state costs, and the transitions.
struct Chart<M> {
    costs: Vec<Entry<M>>,
    transitions: Vec<Transition>,
}

impl<M: Measure> Chart<M> {
    fn read(sheet: &Sheet) -> Self {
        let amounts: Vec<M> =
            sheet.bodies(2).flat_map(|body| body.chunks(M::WIDTH)).map(M::read).collect();
        let cost = |body: &[u8]| {
            let mut cost = Entry::<M>::default();
            for act in body.chunks(2) {
                if act[0] != NONE {
                    cost.amount = cost.amount.plus(amounts[usize::from(act[0])]);
                }
                if act[1] != NONE {
                    cost.counts[usize::from(act[1])] += 1; // four at most
                }
            }
            cost
        };
        let transition =
            |body: &[u8]| Transition { from: body[0].into(), to: body[1].into(), event: body[2] };
        Chart {
            costs: sheet.bodies(3).map(cost).collect(),
            transitions: sheet.bodies(4).map(transition).collect(),
        }
    }

    /// The order in which the states are worked, or refusal 8.
    fn plan(&self) -> Result<Vec<usize>, Refusal> {
        let mut leads = vec![0u128; self.costs.len()];
        for free in self.transitions.iter().filter(|free| free.event == NONE) {
            leads[free.from] |= 1 << free.to;
        }
        let all = (1u128 << self.costs.len()) - 1;
        working_order(&leads, all).or_else(|state| refuse(8, 2, state))
    }

    /// Check 8, then the list of each state and of each event, or refusal 10.
    fn card<R: Reducer>(&self, inputs: usize) -> Result<Vec<List<M>>, Refusal> {
        let mut lists: Vec<List<M>> = vec![Vec::new(); self.costs.len()];
        for state in self.plan()? {
            let cost = &self.costs[state];
            let free = |way: &Transition| way.from == state && way.event == NONE;
            let ahead = self.gather(&lists, free);
            let mut list = vec![*cost];
            if !ahead.is_empty() {
                join(&[*cost], &ahead, &mut list);
                R::reduce(&mut list);
            }
            fits(&list, 2, state)?;
            lists[state] = list;
        }
        let mut card = Vec::with_capacity(inputs);
        for event in 0..inputs {
            let mut list = self.gather(&lists, |way| usize::from(way.event) == event);
            if list.is_empty() {
                list.push(Entry::default());
            } else {
                R::reduce(&mut list);
            }
            fits(&list, 2, 256 + event)?;
            card.push(list);
        }
        Ok(card)
    }

    /// The lists of the destinations of the chosen transitions, in sheet order.
    fn gather(&self, lists: &[List<M>], chosen: impl Fn(&Transition) -> bool) -> List<M> {
        let ways = self.transitions.iter().filter(|way| chosen(way));
        ways.flat_map(|way| lists[way.to].iter().copied()).collect()
    }
}

/// Always the lowest of `all` that is unworked and leads to worked ones only;
/// or, where that ends too early, the lowest that cannot be worked.
fn working_order(leads: &[u128], all: u128) -> Result<Vec<usize>, usize> {
    let mut order = Vec::with_capacity(leads.len());
    let mut unworked = all;
    while unworked != 0 {
        let ready = |&one: &usize| unworked >> one & 1 == 1 && leads[one] & unworked == 0;
        let Some(next) = (0..leads.len()).find(ready) else {
            return Err(unworked.trailing_zeros() as usize);
        };
        unworked &= !(1 << next);
        order.push(next);
    }
    Ok(order)
}

/// Each event's entries, in sheet order, reduced.
fn service_card<M: Measure, R: Reducer>(sheet: &Sheet) -> Result<Vec<List<M>>, Refusal> {
    let mut card: Vec<List<M>> = vec![Vec::new(); sheet.face.inputs];
    for body in sheet.bodies(5) {
        let (amount, sent) = body[1..].split_at(M::WIDTH);
        let mut entry = Entry { amount: M::read(amount), ..Entry::default() };
        entry.counts[..sent.len()].copy_from_slice(sent);
        card[usize::from(body[0])].push(entry);
    }
    for (event, list) in card.iter_mut().enumerate() {
        R::reduce(list);
        fits(list, 2, 256 + event)?;
    }
    Ok(card)
}

// ---------------------------------------------------------------- networks
/// A connection: source instance and its output, target instance and its input.
/// Where an instance is outside, the port is the composite's own.
type Wire = [u8; 4];

/// A composite: the blocks of its instances, its connections, and the lists
/// that are formed in the working, kept from one place to the next.
struct Network<'a, M> {
    face: Interface,
    parts: Vec<&'a Block<M>>,
    wires: Vec<Wire>,
    connected: Vec<[bool; OUTPUTS]>, // of each instance, its outputs
    places: Vec<List<M>>,            // the list of each worked place
    so_far: List<M>,
    source: List<M>,
    sums: List<M>,
}

impl<'a, M: Measure> Network<'a, M> {
    /// Checks 3, 5 and 6 of a composite sheet.
    fn open(sheet: &Sheet, blocks: &'a [Block<M>]) -> Result<Self, Refusal> {
        let mut parts = Vec::new();
        for (instance, body) in sheet.bodies(6).enumerate() {
            let Some(block) = blocks.get(usize::from(body[0])) else {
                return refuse(3, 4, instance);
            };
            parts.push(block);
        }
        let fields = || sheet.fields.iter().filter(|field| field.tag == 7);
        if let Some(field) = fields().find(|field| !named(field.body, sheet.face, &parts)) {
            return refuse(5, 1, field.at);
        }
        let mut connected = vec![[false; OUTPUTS]; parts.len()];
        let mut wires: Vec<Wire> = Vec::new();
        for field in fields() {
            let wire = from_fn(|at| field.body[at]);
            if wires.contains(&wire) {
                return refuse(6, 1, field.at);
            }
            wires.push(wire);
            if wire[0] != NONE {
                connected[usize::from(wire[0])][usize::from(wire[1])] = true;
            }
        }
        let places = vec![Vec::new(); INPUTS * parts.len()];
        let (face, so_far, source, sums) = (sheet.face, Vec::new(), Vec::new(), Vec::new());
        Ok(Network { face, parts, wires, connected, places, so_far, source, sums })
    }

    /// Checks 8 to 10, and the card.
    fn card<R: Reducer>(&mut self) -> Result<Vec<List<M>>, Refusal> {
        let order = self.plan()?;
        self.check_bounds()?;
        for place in order {
            self.places[place] = self.work_place::<R>(place)?;
        }
        let mut card = Vec::with_capacity(self.face.inputs);
        for event in 0..self.face.inputs {
            self.form_source::<R>([NONE, event as u8], 256 + event)?;
            card.push(self.source.clone());
        }
        Ok(card)
    }

    /// Check 8: the order in which the places are worked.
    fn plan(&self) -> Result<Vec<usize>, Refusal> {
        let mut leads = vec![0u128; self.places.len()];
        let mut all = 0u128;
        for (instance, part) in self.parts.iter().enumerate() {
            for (event, list) in part.card.iter().enumerate() {
                let place = INPUTS * instance + event;
                all |= 1 << place;
                leads[place] = self.led_to(instance, list);
            }
        }
        working_order(&leads, all).or_else(|place| refuse(8, 3, place))
    }

    /// The places inside that some entry of this instance's list sends to.
    fn led_to(&self, instance: usize, list: &[Entry<M>]) -> u128 {
        let mut places = 0;
        for &[from, output, to, input] in &self.wires {
            let inside = usize::from(from) == instance && to != NONE;
            if inside && list.iter().any(|entry| entry.counts[usize::from(output)] > 0) {
                places |= 1 << (INPUTS * usize::from(to) + usize::from(input));
            }
        }
        places
    }

    /// Check 9: no entry counts 255 at a connected output.
    fn check_bounds(&self) -> Result<(), Refusal> {
        for (instance, part) in self.parts.iter().enumerate() {
            let connected = &self.connected[instance];
            for (event, list) in part.card.iter().enumerate() {
                let endless = |entry: &Entry<M>| {
                    entry.counts.iter().zip(connected).any(|(&count, &on)| on && count == 255)
                };
                if list.iter().any(endless) {
                    return refuse(9, 3, INPUTS * instance + event);
                }
            }
        }
        Ok(())
    }

    /// The list of a place: for each entry of the block's list, as many joinings
    /// as it counts events at connected outputs.
    fn work_place<R: Reducer>(&mut self, place: usize) -> Result<List<M>, Refusal> {
        let (instance, event) = (place / INPUTS, place % INPUTS);
        let part = self.parts[instance];
        let mut results = Vec::with_capacity(LONGEST * LONGEST);
        for entry in &part.card[event] {
            self.so_far.clear();
            self.so_far.push(Entry { amount: entry.amount, ..Entry::default() });
            for output in 0..OUTPUTS {
                if entry.counts[output] == 0 || !self.connected[instance][output] {
                    continue;
                }
                self.form_source::<R>([instance as u8, output as u8], place)?;
                for _ in 0..entry.counts[output] {
                    join(&self.so_far, &self.source, &mut self.sums);
                    R::reduce(&mut self.sums);
                    fits(&self.sums, 3, place)?;
                    swap(&mut self.so_far, &mut self.sums);
                }
            }
            results.extend_from_slice(&self.so_far);
        }
        R::reduce(&mut results);
        fits(&results, 3, place)?;
        Ok(results)
    }

    /// Forms the list of a source; one that is too long is charged to `place`.
    fn form_source<R: Reducer>(&mut self, source: [u8; 2], place: usize) -> Result<(), Refusal> {
        self.source.clear();
        self.source.push(Entry::default());
        for &[_, _, to, input] in self.wires.iter().filter(|wire| wire[..2] == source) {
            if to == NONE {
                let mut once = Entry::default();
                once.counts[usize::from(input)] = 1;
                join(&self.source, &[once], &mut self.sums);
            } else {
                let target = &self.places[INPUTS * usize::from(to) + usize::from(input)];
                join(&self.source, target, &mut self.sums);
            }
            R::reduce(&mut self.sums);
            fits(&self.sums, 3, place)?;
            swap(&mut self.source, &mut self.sums);
        }
        Ok(())
    }
}

/// Whether both ends of a connection are there.
fn named<M>(wire: &[u8], face: Interface, parts: &[&Block<M>]) -> bool {
    let [from, output, to, input] = [wire[0], wire[1], wire[2], wire[3]].map(usize::from);
    let outside = usize::from(NONE);
    let source = match parts.get(from) {
        Some(part) => output < part.outputs,
        None => from == outside && output < face.inputs,
    };
    let target = match parts.get(to) {
        Some(part) => input < part.card.len(),
        None => to == outside && input < face.outputs,
    };
    source && target
}

// ------------------------------------------------------------- the library
struct Block<M> {
    outputs: usize,
    card: Vec<List<M>>, // one list for each input
}

struct Library<M> {
    shelf: Vec<u8>,
    blocks: Vec<Block<M>>,
}

impl<M: Measure> Library<M> {
    /// Checks a sheet, works its card, keeps both, and answers its number.
    fn enter<R: Reducer>(&mut self, bytes: &[u8]) -> Result<usize, Refusal> {
        let sheet = Sheet::open(bytes, M::WIDTH)?;
        let card = if sheet.face.kind == Kind::Composite {
            let mut network = Network::open(&sheet, &self.blocks)?;
            self.check_room(bytes.len())?;
            network.card::<R>()?
        } else {
            check_names(&sheet, M::WIDTH)?;
            self.check_room(bytes.len())?;
            match sheet.face.kind {
                Kind::Basic => Chart::read(&sheet).card::<R>(sheet.face.inputs)?,
                _ => service_card::<M, R>(&sheet)?,
            }
        };
        self.shelf.extend_from_slice(bytes);
        self.blocks.push(Block { outputs: sheet.face.outputs, card });
        Ok(self.blocks.len() - 1)
    }

    /// Check 7: room on the shelf and in the index; the cards have as much.
    fn check_room(&self, length: usize) -> Result<(), Refusal> {
        if self.shelf.len() + length > SHELF {
            return refuse(7, 4, 1);
        }
        if self.blocks.len() >= BLOCKS {
            return refuse(7, 4, 2);
        }
        Ok(())
    }

    fn print_cards(&self, out: &mut impl Write) -> io::Result<()> {
        for (number, block) in self.blocks.iter().enumerate() {
            for (event, list) in block.card.iter().enumerate() {
                for (position, entry) in list.iter().enumerate() {
                    write!(out, "card {number} {event} {position} {}", entry.amount)?;
                    for count in &entry.counts[..block.outputs] {
                        write!(out, " {count}")?;
                    }
                    writeln!(out)?;
                }
            }
        }
        Ok(())
    }
}

// -------------------------------------------------------------- the report
fn report<M: Measure, R: Reducer>() -> io::Result<()> {
    let mut file = Vec::new();
    io::stdin().lock().read_to_end(&mut file)?;
    let mut out = BufWriter::new(io::stdout().lock());
    let mut library = Library::<M> { shelf: Vec::with_capacity(SHELF), blocks: Vec::new() };
    let mut at = 0;
    while at < file.len() {
        let Some(field) = field_at(&file, at).filter(|field| field.tag == 9) else {
            writeln!(out, "file {at}")?;
            break;
        };
        at = field.end();
        match library.enter::<R>(field.body) {
            Ok(block) => writeln!(out, "9 0 {block}")?,
            Err(Refusal { number, level, place }) => writeln!(out, "9 {number} {level} {place}")?,
        }
    }
    library.print_cards(&mut out)?;
    out.flush()
}

fn main() -> io::Result<()> {
    let (mut memory, mut merge) = (false, false);
    for word in env::args_os().skip(1) {
        match word.to_str() {
            Some("memory") => memory = true,
            Some("merge") => merge = true,
            _ => {
                println!("report: the words are memory and merge");
                return Ok(());
            }
        }
    }
    match (memory, merge) {
        (false, false) => report::<u32, Keep>(),
        (false, true) => report::<u32, Merge>(),
        (true, false) => report::<u16, Keep>(),
        (true, true) => report::<u16, Merge>(),
    }
}
