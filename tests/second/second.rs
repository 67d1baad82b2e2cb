//! A second implementation of the engine, written from docs/METHOD.md,
//! docs/FAULTS.md and docs/CASE_FILE.md alone, for plainness and not for speed.
//!
//! Checks 2, 7, 8 and 10 to 12 cannot fail here: they are about tables that a
//! caller hands in, and here every table is made where it is needed.

use std::collections::BTreeSet;
use std::fmt::{self, Display};

/// The longest input that the programs take.
pub const LONGEST_INPUT: usize = 16_384;
const HEADER: usize = 17;

// ---------------------------------------------------------------- faults

#[derive(Clone, Copy, Debug, PartialEq, Eq)]
pub enum Check {
    Size = 1,
    RowStart = 3,
    Column = 4,
    OwnColumn = 5,
    Seed = 6,
    Lawful = 9,
    Coefficient = 13,
    RightHandSide = 14,
    Vector = 15,
    NoSuchTile = 16,
    TileDone = 17,
    TileWaits = 18,
    FileLength = 19,
    FileForm = 20,
}

#[derive(Clone, Copy, Debug, PartialEq, Eq)]
pub enum Layer {
    File,
    Matrix,
    Plan,
    Run,
}

impl Display for Layer {
    fn fmt(&self, f: &mut fmt::Formatter) -> fmt::Result {
        f.write_str(match self {
            Layer::File => "file",
            Layer::Matrix => "matrix",
            Layer::Plan => "plan",
            Layer::Run => "run",
        })
    }
}

#[derive(Clone, Copy, Debug, PartialEq, Eq)]
pub struct Fault {
    pub check: Check,
    pub place: usize,
    pub layer: Layer,
}

impl Display for Fault {
    fn fmt(&self, f: &mut fmt::Formatter) -> fmt::Result {
        let number = self.check as u8;
        write!(f, "refused {number} place {} in {}", self.place, self.layer)
    }
}

impl Layer {
    fn refuse<T>(self, check: Check, place: usize) -> Result<T, Fault> {
        Err(Fault {
            check,
            place,
            layer: self,
        })
    }

    /// Refuses at the first of the places where a check is broken, if there is one.
    fn refuse_first(
        self,
        check: Check,
        broken: impl IntoIterator<Item = usize>,
    ) -> Result<(), Fault> {
        match broken.into_iter().next() {
            Some(place) => self.refuse(check, place),
            None => Ok(()),
        }
    }
}

// ----------------------------------------------------------- arithmetics

pub trait Arithmetic: Copy {
    const WIDTH: usize;
    fn read(bytes: &[u8]) -> Self;
    fn is_admissible(self) -> bool;
    fn is_usable_on_diagonal(self) -> bool;
    fn take_in(self, coefficient: Self, value: Self) -> Self;
    fn finish(self, diagonal: Self) -> Self;
    fn bits(self) -> String;
}

#[derive(Clone, Copy, Debug)]
pub struct Double(f64);

impl Double {
    /// All patterns that are not a number become one.
    fn one_nan(value: f64) -> Self {
        Double(if value.is_nan() {
            f64::from_bits(0x7ff8 << 48)
        } else {
            value
        })
    }
}

impl Arithmetic for Double {
    const WIDTH: usize = 8;

    fn read(bytes: &[u8]) -> Self {
        Self::one_nan(f64::from_bits(big_endian(bytes)))
    }

    fn is_admissible(self) -> bool {
        self.0.is_finite()
    }

    fn is_usable_on_diagonal(self) -> bool {
        self.0.is_finite() && self.0 != 0.0
    }

    fn take_in(self, coefficient: Self, value: Self) -> Self {
        let product = coefficient.0 * value.0;
        Self::one_nan(self.0 - product)
    }

    fn finish(self, diagonal: Self) -> Self {
        Self::one_nan(self.0 / diagonal.0)
    }

    fn bits(self) -> String {
        format!("{:016x}", self.0.to_bits())
    }
}

#[derive(Clone, Copy, Debug)]
pub struct Minutes(u32);

const NEVER: u64 = 4_294_967_295;

impl Arithmetic for Minutes {
    const WIDTH: usize = 4;

    fn read(bytes: &[u8]) -> Self {
        Minutes(big_endian(bytes) as u32)
    }

    fn is_admissible(self) -> bool {
        true
    }

    fn is_usable_on_diagonal(self) -> bool {
        self.0 == 0
    }

    fn take_in(self, coefficient: Self, value: Self) -> Self {
        let sum = u64::from(coefficient.0) + u64::from(value.0);
        Minutes(self.0.min(sum.min(NEVER) as u32))
    }

    fn finish(self, _diagonal: Self) -> Self {
        self
    }

    fn bits(self) -> String {
        format!("{:08x}", self.0)
    }
}

// ------------------------------------------------------------ case files

#[derive(Clone, Copy, Debug)]
pub struct Sizes {
    pub rows: usize,
    pub entries: usize,
    pub sweeps: usize,
    pub tiles: usize,
    pub seed_sweep: usize,
}

impl Sizes {
    fn check(&self) -> Result<(), Fault> {
        let sizes = [
            (self.rows, 1_048_576),
            (self.entries, 16_777_216),
            (self.sweeps, 16),
            (self.tiles, 64),
            (self.seed_sweep, self.sweeps),
        ];
        let outside = (1..)
            .zip(sizes)
            .filter(|&(_, (size, greatest))| size < 1 || size > greatest);
        Layer::File.refuse_first(Check::Size, outside.map(|(place, _)| place))
    }

    fn file_length(&self, width: usize) -> usize {
        let Sizes { rows, entries, .. } = *self;
        HEADER + 4 * (rows + 1) + (4 + width) * entries + 2 * width * rows + rows
    }
}

pub struct Matrix {
    row_starts: Vec<usize>,
    columns: Vec<usize>,
}

/// A matrix with its figures, in the file's numbering or in the new one.
pub struct System<N> {
    pub matrix: Matrix,
    coefficients: Vec<N>,
    right_hand_side: Vec<N>,
    vector: Vec<N>,
}

pub struct Case<N> {
    pub sizes: Sizes,
    pub system: System<N>,
    seed: Vec<u8>,
}

pub enum AnyCase {
    Doubles(Case<Double>),
    Minutes(Case<Minutes>),
}

fn big_endian(bytes: &[u8]) -> u64 {
    bytes
        .iter()
        .fold(0, |number, &byte| number << 8 | u64::from(byte))
}

fn number_at(file: &[u8], offset: usize, length: usize) -> usize {
    big_endian(&file[offset..offset + length]) as usize
}

impl AnyCase {
    pub fn read(file: &[u8]) -> Result<Self, Fault> {
        if file.len() < HEADER || number_at(file, 0, 4) != file.len() - 4 {
            return Layer::File.refuse(Check::FileLength, 0);
        }
        if file[4] != 1 {
            return Layer::File.refuse(Check::FileForm, 4);
        }
        match file[5] {
            1 => Case::read(file).map(AnyCase::Doubles),
            2 => Case::read(file).map(AnyCase::Minutes),
            _ => Layer::File.refuse(Check::FileForm, 5),
        }
    }

    /// Reads as the programs do, which take no long input.
    fn read_input(input: &[u8]) -> Result<Self, Fault> {
        if input.len() > LONGEST_INPUT {
            return Layer::File.refuse(Check::FileLength, 0);
        }
        Self::read(input)
    }
}

struct Tables<'f> {
    rest: &'f [u8],
}

impl<'f> Tables<'f> {
    fn bytes(&mut self, length: usize) -> &'f [u8] {
        let (table, rest) = self.rest.split_at(length);
        self.rest = rest;
        table
    }

    fn numbers(&mut self, length: usize) -> Vec<usize> {
        self.bytes(4 * length)
            .chunks(4)
            .map(|bytes| big_endian(bytes) as usize)
            .collect()
    }

    fn figures<N: Arithmetic>(&mut self, length: usize) -> Vec<N> {
        self.bytes(N::WIDTH * length)
            .chunks(N::WIDTH)
            .map(N::read)
            .collect()
    }
}

impl<N: Arithmetic> Case<N> {
    fn read(file: &[u8]) -> Result<Self, Fault> {
        let sizes = Sizes {
            rows: number_at(file, 9, 4),
            entries: number_at(file, 13, 4),
            sweeps: number_at(file, 6, 1),
            tiles: number_at(file, 8, 1),
            seed_sweep: number_at(file, 7, 1),
        };
        sizes.check()?;
        if file.len() != sizes.file_length(N::WIDTH) {
            return Layer::File.refuse(Check::FileLength, HEADER);
        }
        let mut tables = Tables {
            rest: &file[HEADER..],
        };
        let system = System {
            matrix: Matrix {
                row_starts: tables.numbers(sizes.rows + 1),
                columns: tables.numbers(sizes.entries),
            },
            coefficients: tables.figures(sizes.entries),
            right_hand_side: tables.figures(sizes.rows),
            vector: tables.figures(sizes.rows),
        };
        let seed = tables.bytes(sizes.rows).to_vec();
        Ok(Case {
            sizes,
            system,
            seed,
        })
    }
}

// ---------------------------------------------------------------- matrix

impl Matrix {
    pub fn rows(&self) -> usize {
        self.row_starts.len() - 1
    }

    fn entries_of(&self, row: usize) -> std::ops::Range<usize> {
        self.row_starts[row]..self.row_starts[row + 1]
    }

    /// Every entry with its row.
    fn entries(&self) -> impl Iterator<Item = (usize, usize)> {
        (0..self.rows()).flat_map(|row| self.entries_of(row).map(move |entry| (entry, row)))
    }

    fn is_on_diagonal(&self, entry: usize, row: usize) -> bool {
        self.columns[entry] == row
    }

    fn check(&self) -> Result<(), Fault> {
        let starts = &self.row_starts;
        let wrong_starts = (0..starts.len()).filter(|&index| {
            let rises = if index == 0 {
                starts[0] == 0
            } else {
                starts[index] >= starts[index - 1]
            };
            let ends = index < self.rows() || starts[index] == self.columns.len();
            !(rises && ends)
        });
        Layer::Matrix.refuse_first(Check::RowStart, wrong_starts)?;
        let outside = (0..self.columns.len()).filter(|&entry| self.columns[entry] >= self.rows());
        Layer::Matrix.refuse_first(Check::Column, outside)?;
        let without_one_own = (0..self.rows()).filter(|&row| {
            let own = self
                .entries_of(row)
                .filter(|&entry| self.is_on_diagonal(entry, row));
            own.count() != 1
        });
        Layer::Matrix.refuse_first(Check::OwnColumn, without_one_own)
    }

    /// Every two linked rows, in both orders.
    fn links(&self) -> BTreeSet<(usize, usize)> {
        self.entries()
            .map(|(entry, row)| (row, self.columns[entry]))
            .filter(|(v, w)| v != w)
            .flat_map(|(v, w)| [(v, w), (w, v)])
            .collect()
    }
}

// ------------------------------------------------------- the plain sweep

impl<N: Arithmetic> System<N> {
    fn check_figures(&self) -> Result<(), Fault> {
        let on_diagonal = |&(entry, row): &(usize, usize)| self.matrix.is_on_diagonal(entry, row);
        let wrong = self.matrix.entries().filter(|place| {
            let coefficient = self.coefficients[place.0];
            let unusable = on_diagonal(place) && !coefficient.is_usable_on_diagonal();
            unusable || !coefficient.is_admissible()
        });
        Layer::Run.refuse_first(Check::Coefficient, wrong.map(|(entry, _)| entry))?;
        Layer::Run.refuse_first(Check::RightHandSide, not_admissible(&self.right_hand_side))?;
        Layer::Run.refuse_first(Check::Vector, not_admissible(&self.vector))
    }

    fn update_row(&self, row: usize, values: &mut [N]) {
        let (own, others): (Vec<usize>, Vec<usize>) = self
            .matrix
            .entries_of(row)
            .partition(|&entry| self.matrix.is_on_diagonal(entry, row));
        let sum = others
            .iter()
            .fold(self.right_hand_side[row], |accumulator, &entry| {
                let value = values[self.matrix.columns[entry]];
                accumulator.take_in(self.coefficients[entry], value)
            });
        values[row] = sum.finish(self.coefficients[own[0]]);
    }

    /// The plain values of all rows for 0, 1, ... up to all sweeps.
    pub fn plain_values(&self, sweeps: usize) -> Vec<Vec<N>> {
        let mut after = vec![self.vector.clone()];
        for sweep in 0..sweeps {
            let mut values = after[sweep].clone();
            for row in 0..self.matrix.rows() {
                self.update_row(row, &mut values);
            }
            after.push(values);
        }
        after
    }
}

fn not_admissible<N: Arithmetic>(figures: &[N]) -> impl Iterator<Item = usize> {
    (0..figures.len()).filter(|&place| !figures[place].is_admissible())
}

// --------------------------------------------------------------- growing

/// The tiles of each sweep's rows; sweep s stands at s - 1.
type TileTable = Vec<Vec<u8>>;
type Order = BTreeSet<(usize, usize)>;

fn grow<N>(case: &Case<N>) -> Result<TileTable, Fault> {
    let Sizes {
        sweeps,
        seed_sweep,
        tiles,
        ..
    } = case.sizes;
    case.system.matrix.check()?;
    let too_high = (0..case.seed.len()).filter(|&row| usize::from(case.seed[row]) >= tiles);
    Layer::Matrix.refuse_first(Check::Seed, too_high)?;

    let links = case.system.matrix.links();
    let mut before = Order::new();
    let mut table = vec![Vec::new(); sweeps];
    let seeded = seed_sweep - 1;
    table[seeded] = case.seed.clone();
    put_in_order(&mut before, &links, &table[seeded]);
    for sweep in (0..seeded).rev() {
        table[sweep] = grow_down(&table[sweep + 1], &before);
        put_in_order(&mut before, &links, &table[sweep]);
    }
    for sweep in seed_sweep..sweeps {
        table[sweep] = grow_up(&table[sweep - 1], &before);
        put_in_order(&mut before, &links, &table[sweep]);
    }
    Ok(table)
}

fn put_in_order(before: &mut Order, links: &Order, tiles: &[u8]) {
    before.extend(links.iter().filter(|&&(v, w)| tiles[v] < tiles[w]));
}

fn grow_down(above: &[u8], before: &Order) -> Vec<u8> {
    settle(above, |tiles| {
        for &(v, w) in before {
            tiles[w] = tiles[w].min(above[v]);
            tiles[v] = tiles[v].min(tiles[w]);
        }
    })
}

fn grow_up(below: &[u8], before: &Order) -> Vec<u8> {
    settle(below, |tiles| {
        for &(v, w) in before {
            tiles[v] = tiles[v].max(below[w]);
            tiles[w] = tiles[w].max(tiles[v]);
        }
    })
}

/// Repeats a round until it moves nothing.
fn settle(start: &[u8], round: impl Fn(&mut [u8])) -> Vec<u8> {
    let mut tiles = start.to_vec();
    loop {
        let previous = tiles.clone();
        round(&mut tiles);
        if tiles == previous {
            return tiles;
        }
    }
}

// ----------------------------------------------------- the new numbering

pub struct Numbering {
    ranks: Vec<usize>,
    rows_by_rank: Vec<usize>,
}

impl Numbering {
    fn of(table: &TileTable) -> Self {
        let rows = table[0].len();
        let tile_vector = |row: usize| table.iter().map(move |tiles| tiles[row]);
        let mut rows_by_rank: Vec<usize> = (0..rows).collect();
        rows_by_rank.sort_by(|&v, &w| tile_vector(v).cmp(tile_vector(w)).then(v.cmp(&w)));
        let mut ranks = vec![0; rows];
        for (rank, &row) in rows_by_rank.iter().enumerate() {
            ranks[row] = rank;
        }
        Numbering {
            ranks,
            rows_by_rank,
        }
    }

    fn carry<E: Copy>(&self, by_row: &[E]) -> Vec<E> {
        self.rows_by_rank.iter().map(|&row| by_row[row]).collect()
    }

    fn carry_back<E: Copy>(&self, by_rank: &[E]) -> Vec<E> {
        self.ranks.iter().map(|&rank| by_rank[rank]).collect()
    }

    fn remap<N: Arithmetic>(&self, system: &System<N>) -> System<N> {
        let mut matrix = Matrix {
            row_starts: vec![0],
            columns: Vec::new(),
        };
        let mut coefficients = Vec::new();
        for &row in &self.rows_by_rank {
            for entry in system.matrix.entries_of(row) {
                matrix
                    .columns
                    .push(self.ranks[system.matrix.columns[entry]]);
                coefficients.push(system.coefficients[entry]);
            }
            matrix.row_starts.push(matrix.columns.len());
        }
        System {
            matrix,
            coefficients,
            right_hand_side: self.carry(&system.right_hand_side),
            vector: self.carry(&system.vector),
        }
    }
}

// ----------------------------------------------------------------- plans

#[derive(Clone, Copy, Debug)]
struct Point {
    sweep: usize,
    row: usize,
}

/// A tile table in the new numbering with its wait words.
pub struct Plan {
    tile_table: TileTable,
    pub wait_words: Vec<u64>,
}

impl Plan {
    fn open(matrix: &Matrix, tiles: usize, tile_table: TileTable) -> Result<Self, Fault> {
        let mut plan = Plan {
            tile_table,
            wait_words: vec![0; tiles],
        };
        let pairs = plan.preceding_pairs(&matrix.links());
        let late = pairs
            .iter()
            .filter(|&&(p, q)| plan.tile_of(p) > plan.tile_of(q));
        let lowest = late
            .map(|&(_, q)| (q.sweep - 1) * matrix.rows() + q.row)
            .min();
        Layer::Plan.refuse_first(Check::Lawful, lowest)?;
        for (p, q) in pairs {
            let (t, u) = (plan.tile_of(p), plan.tile_of(q));
            if t != u {
                plan.wait_words[u] |= 1 << t;
            }
        }
        Ok(plan)
    }

    fn tile_of(&self, point: Point) -> usize {
        usize::from(self.tile_table[point.sweep - 1][point.row])
    }

    /// All points, sweep by sweep and rows rising.
    fn points(&self) -> impl Iterator<Item = Point> {
        let rows = self.tile_table[0].len();
        (1..=self.tile_table.len())
            .flat_map(move |sweep| (0..rows).map(move |row| Point { sweep, row }))
    }

    fn points_of(&self, tile: usize) -> impl Iterator<Item = Point> {
        self.points()
            .filter(move |&point| self.tile_of(point) == tile)
    }

    /// All pairs of which the first point directly precedes the second.
    fn preceding_pairs(&self, links: &Order) -> Vec<(Point, Point)> {
        let sweeps = self.tile_table.len();
        let at = |sweep, row| Point { sweep, row };
        let own = self.points().map(|p| (p, at(p.sweep + 1, p.row)));
        let linked = (1..=sweeps).flat_map(|sweep| {
            links.iter().flat_map(move |&(i, j)| {
                let same_sweep = (i < j).then_some((at(sweep, i), at(sweep, j)));
                same_sweep
                    .into_iter()
                    .chain([(at(sweep, i), at(sweep + 1, j))])
            })
        });
        own.chain(linked)
            .filter(|(_, q)| q.sweep <= sweeps)
            .collect()
    }

    /// How many sweeps the done tiles carry a row through.
    pub fn sweeps_done(&self, row: usize, done: u64) -> usize {
        self.tile_table
            .iter()
            .take_while(|tiles| done >> tiles[row] & 1 == 1)
            .count()
    }
}

/// A case in the new numbering, ready to begin runs.
pub struct PlannedCase<N> {
    pub sizes: Sizes,
    pub numbering: Numbering,
    pub system: System<N>,
    pub plan: Plan,
}

impl<N: Arithmetic> PlannedCase<N> {
    pub fn of(case: &Case<N>) -> Result<Self, Fault> {
        let grown = grow(case)?;
        let numbering = Numbering::of(&grown);
        let system = numbering.remap(&case.system);
        let tile_table = grown.iter().map(|tiles| numbering.carry(tiles)).collect();
        let plan = Plan::open(&system.matrix, case.sizes.tiles, tile_table)?;
        Ok(PlannedCase {
            sizes: case.sizes,
            numbering,
            system,
            plan,
        })
    }

    pub fn begin(&self) -> Result<Run<'_, N>, Fault> {
        self.system.check_figures()?;
        let values = self.system.vector.clone();
        Ok(Run {
            planned: self,
            values,
            done: 0,
            updated: 0,
        })
    }
}

// ------------------------------------------------------------------ runs

pub struct Run<'p, N> {
    planned: &'p PlannedCase<N>,
    pub values: Vec<N>,
    pub done: u64,
    pub updated: usize,
}

impl<N: Arithmetic> Run<'_, N> {
    /// Calls a tile and answers how many points it updated.
    pub fn call(&mut self, number: u8) -> Result<usize, Fault> {
        let tile = usize::from(number);
        self.check_call(tile)?;
        let points: Vec<Point> = self.planned.plan.points_of(tile).collect();
        for point in &points {
            self.planned.system.update_row(point.row, &mut self.values);
        }
        self.done |= 1 << tile;
        self.updated += points.len();
        Ok(points.len())
    }

    fn check_call(&self, tile: usize) -> Result<(), Fault> {
        if tile >= self.planned.sizes.tiles {
            return Layer::Run.refuse(Check::NoSuchTile, tile);
        }
        if self.done >> tile & 1 == 1 {
            return Layer::Run.refuse(Check::TileDone, tile);
        }
        let missing = self.planned.plan.wait_words[tile] & !self.done;
        let awaited = (0..64).filter(|&other| missing >> other & 1 == 1);
        Layer::Run.refuse_first(Check::TileWaits, awaited)
    }

    fn is_whole(&self) -> bool {
        self.done.count_ones() as usize == self.planned.sizes.tiles
    }
}

// --------------------------------------------------------------- listings

/// What `curtzano` prints.
pub fn listing(input: &[u8]) -> String {
    text_or_fault(AnyCase::read_input(input).and_then(|any| match any {
        AnyCase::Doubles(case) => list_values(&case),
        AnyCase::Minutes(case) => list_values(&case),
    }))
}

/// What `replay` writes.
pub fn replay(file: &[u8], calls: &[u8]) -> String {
    text_or_fault(AnyCase::read(file).and_then(|any| match any {
        AnyCase::Doubles(case) => list_calls(&case, calls),
        AnyCase::Minutes(case) => list_calls(&case, calls),
    }))
}

/// What `plain_sweep` prints.
pub fn plain(input: &[u8]) -> String {
    text_or_fault(AnyCase::read_input(input).and_then(|any| match any {
        AnyCase::Doubles(case) => list_plain_values(&case),
        AnyCase::Minutes(case) => list_plain_values(&case),
    }))
}

/// What `show_tiles` prints.
pub fn tiles(input: &[u8]) -> String {
    text_or_fault(AnyCase::read_input(input).and_then(|any| match any {
        AnyCase::Doubles(case) => list_tiles(&case),
        AnyCase::Minutes(case) => list_tiles(&case),
    }))
}

/// The wait words of a case's tiles.
pub fn wait_words(file: &[u8]) -> Result<Vec<u64>, Fault> {
    Ok(match AnyCase::read(file)? {
        AnyCase::Doubles(case) => PlannedCase::of(&case)?.plan.wait_words,
        AnyCase::Minutes(case) => PlannedCase::of(&case)?.plan.wait_words,
    })
}

fn text_or_fault(answer: Result<Vec<String>, Fault>) -> String {
    let lines = answer.unwrap_or_else(|fault| vec![fault.to_string()]);
    lines.into_iter().map(|line| line + "\n").collect()
}

fn heading(sizes: &Sizes) -> String {
    let Sizes {
        rows,
        sweeps,
        tiles,
        ..
    } = sizes;
    format!("rows {rows} sweeps {sweeps} tiles {tiles}")
}

fn list_values<N: Arithmetic>(case: &Case<N>) -> Result<Vec<String>, Fault> {
    let planned = PlannedCase::of(case)?;
    let mut run = planned.begin()?;
    let mut lines = vec![heading(&case.sizes)];
    for (tile, wait_word) in (0..).zip(&planned.plan.wait_words) {
        let points = run.call(tile)?;
        lines.push(format!("tile {tile} points {points} waits {wait_word:x}"));
    }
    let values = planned.numbering.carry_back(&run.values);
    for (row, (rank, value)) in planned.numbering.ranks.iter().zip(values).enumerate() {
        lines.push(format!("row {row} rank {rank} value {}", value.bits()));
    }
    Ok(lines)
}

fn list_calls<N: Arithmetic>(case: &Case<N>, calls: &[u8]) -> Result<Vec<String>, Fault> {
    let planned = PlannedCase::of(case)?;
    let mut run = planned.begin()?;
    let mut lines = vec![heading(&case.sizes)];
    for &tile in calls {
        lines.push(match run.call(tile) {
            Ok(points) => format!("call {tile} points {points}"),
            Err(fault) => format!("call {tile} {fault}"),
        });
        let values = run
            .values
            .iter()
            .map(|value| " ".to_owned() + &value.bits());
        lines.push("values".to_owned() + &values.collect::<String>());
    }
    let end = if run.is_whole() { "whole" } else { "cut short" };
    lines.push(format!(
        "closed done {:x} points {} {end}",
        run.done, run.updated
    ));
    Ok(lines)
}

fn list_plain_values<N: Arithmetic>(case: &Case<N>) -> Result<Vec<String>, Fault> {
    let Sizes { rows, sweeps, .. } = case.sizes;
    case.system.matrix.check()?;
    case.system.check_figures()?;
    let mut lines = vec![format!("rows {rows} sweeps {sweeps}")];
    let values = &case.system.plain_values(sweeps)[sweeps];
    let rows = values.iter().enumerate();
    lines.extend(rows.map(|(row, value)| format!("row {row} value {}", value.bits())));
    Ok(lines)
}

fn list_tiles<N>(case: &Case<N>) -> Result<Vec<String>, Fault> {
    let mut lines = vec![heading(&case.sizes)];
    for (sweep, tiles) in (1..).zip(grow(case)?) {
        let tiles: String = tiles.iter().map(|tile| format!(" {tile}")).collect();
        lines.push(format!("sweep {sweep} tiles{tiles}"));
    }
    Ok(lines)
}
