//! Random case files, whole and damaged, and random lists of tile calls.

use crate::second::LONGEST_INPUT;

const DOUBLES: u8 = 1;
const MINUTES: u8 = 2;
const INFINITY: u64 = 0x7ff0 << 48;
const SIGN: u64 = 1 << 63;
const NEVER: u64 = 4_294_967_295;

// -------------------------------------------------------- random numbers

/// The generator splitmix64.
pub struct Random {
    state: u64,
}

impl Random {
    /// Every case has a generator of its own, so it can be made alone.
    pub fn for_case(seed: u64, number: u64) -> Self {
        let state = Random { state: seed }.next() ^ number;
        Random {
            state: Random { state }.next(),
        }
    }

    pub fn next(&mut self) -> u64 {
        self.state = self.state.wrapping_add(0x9e37_79b9_7f4a_7c15);
        let mixed = (self.state ^ self.state >> 30).wrapping_mul(0xbf58_476d_1ce4_e5b9);
        let mixed = (mixed ^ mixed >> 27).wrapping_mul(0x94d0_49bb_1331_11eb);
        mixed ^ mixed >> 31
    }

    pub fn below(&mut self, bound: usize) -> usize {
        (self.next() % bound as u64) as usize
    }

    fn between(&mut self, least: usize, greatest: usize) -> usize {
        least + self.below(greatest - least + 1)
    }

    fn chance(&mut self, percent: usize) -> bool {
        self.below(100) < percent
    }

    fn pick<T: Copy>(&mut self, choices: &[T]) -> T {
        choices[self.below(choices.len())]
    }

    fn shuffle<T>(&mut self, items: &mut [T]) {
        for last in (1..items.len()).rev() {
            items.swap(last, self.below(last + 1));
        }
    }
}

// ---------------------------------------------------------------- drafts

/// The fields and tables of a case file, right or wrong.
struct Draft {
    version: u8,
    kind: u8,
    sweeps: u8,
    seed_sweep: u8,
    tiles: u8,
    rows: u32,
    entries: u32,
    row_starts: Vec<u32>,
    columns: Vec<u32>,
    coefficients: Vec<u64>,
    right_hand_side: Vec<u64>,
    vector: Vec<u64>,
    seed: Vec<u8>,
}

impl Draft {
    fn to_file(&self) -> Vec<u8> {
        let mut file = vec![0, 0, 0, 0, self.version, self.kind];
        file.extend([self.sweeps, self.seed_sweep, self.tiles]);
        let numbers = [self.rows, self.entries].into_iter();
        let tables = self.row_starts.iter().chain(&self.columns).copied();
        file.extend(numbers.chain(tables).flat_map(u32::to_be_bytes));
        for figure in self
            .coefficients
            .iter()
            .chain(&self.right_hand_side)
            .chain(&self.vector)
        {
            file.extend(&figure.to_be_bytes()[8 - width(self.kind)..]);
        }
        file.extend(&self.seed);
        tell_length(&mut file);
        file
    }

    /// Whether the row starts still divide the entries into rows.
    fn has_rows(&self) -> bool {
        let end = self.columns.len() as u32;
        self.row_starts.is_sorted() && self.row_starts.last() == Some(&end)
    }

    /// Every entry with its row.
    fn entries_with_rows(&self) -> Vec<(usize, usize)> {
        let bounds = self.row_starts.windows(2).enumerate();
        bounds
            .flat_map(|(row, of)| (of[0]..of[1]).map(move |e| (e as usize, row)))
            .collect()
    }

    fn own_entry(&self, random: &mut Random) -> usize {
        let own = |&(entry, row): &(usize, usize)| self.columns[entry] as usize == row;
        let diagonal: Vec<_> = self.entries_with_rows().into_iter().filter(own).collect();
        if diagonal.is_empty() {
            0
        } else {
            random.pick(&diagonal).0
        }
    }
}

fn width(kind: u8) -> usize {
    if kind == MINUTES { 4 } else { 8 }
}

/// Writes how many bytes follow the first four.
fn tell_length(file: &mut [u8]) {
    let follow = file.len() as u32 - 4;
    file[..4].copy_from_slice(&follow.to_be_bytes());
}

// ---------------------------------------------------------------- meshes

type Links = Vec<(usize, usize)>;

fn mesh(random: &mut Random, rows: usize) -> Links {
    let line = |reach: usize| (reach..rows).map(move |row| (row - reach, row));
    match random.below(8) {
        0 | 1 => line(1).collect(),
        2 => line(1).chain((rows > 2).then_some((rows - 1, 0))).collect(),
        3 => line(1).chain(line(random.between(2, 5))).collect(),
        4 => grid(rows, random.between(1, 9)),
        5 => (1..rows).map(|row| (0, row)).collect(),
        6 => (1..rows).map(|row| (random.below(row), row)).collect(),
        _ => scattered(random, rows),
    }
}

fn grid(rows: usize, side: usize) -> Links {
    let across = (1..rows)
        .filter(|row| row % side != 0)
        .map(|row| (row - 1, row));
    across
        .chain((side..rows).map(|row| (row - side, row)))
        .collect()
}

fn scattered(random: &mut Random, rows: usize) -> Links {
    let links = random.below(3 * rows + 1);
    let drawn = (0..links).map(|_| (random.below(rows), random.below(rows)));
    drawn.filter(|(v, w)| v != w).collect()
}

/// Columns by row: the own ones, and each link's one way or both ways.
fn store(random: &mut Random, rows: usize, links: &Links) -> Vec<Vec<usize>> {
    let mut stored: Vec<Vec<usize>> = (0..rows).map(|row| vec![row]).collect();
    let both_ways = random.pick(&[0, 50, 90, 100, 100, 100]);
    let repeated = random.pick(&[0, 0, 0, 20, 60]);
    for &(v, w) in links {
        let (v, w) = if random.chance(50) { (v, w) } else { (w, v) };
        stored[v].push(w);
        if random.chance(both_ways) {
            stored[w].push(v);
        }
        if random.chance(repeated) {
            stored[v].push(w);
        }
    }
    match random.below(3) {
        0 => stored.iter_mut().for_each(|row| row.sort()),
        1 => stored.iter_mut().for_each(|row| random.shuffle(row)),
        _ => (),
    }
    stored
}

// ----------------------------------------------------------------- seeds

fn seed_cells(random: &mut Random, rows: usize, tiles: usize) -> Vec<usize> {
    let block = random.between(1, rows);
    let style = random.below(6);
    let cell = |row: usize, random: &mut Random| match style {
        0 => row * tiles / rows,
        1 => tiles - 1 - row * tiles / rows,
        2 => row / block % tiles,
        3 => row % tiles,
        4 if random.chance(90) => row * tiles / rows,
        _ => random.below(tiles),
    };
    (0..rows).map(|row| cell(row, random)).collect()
}

// --------------------------------------------------------------- figures

/// How the figures of a case are spread.
#[derive(Clone, Copy)]
enum Spread {
    Whole,
    Fine,
    Tiny,
    Huge,
    Any,
    Mixed,
}

const SPREADS: [Spread; 6] = [
    Spread::Whole,
    Spread::Fine,
    Spread::Tiny,
    Spread::Huge,
    Spread::Any,
    Spread::Mixed,
];

fn figure(random: &mut Random, kind: u8, spread: Spread) -> u64 {
    match (kind, spread) {
        (_, Spread::Mixed) => {
            let spread = random.pick(&SPREADS[..5]);
            figure(random, kind, spread)
        }
        (MINUTES, _) => minute(random, spread),
        _ => finite_double(random, spread),
    }
}

fn minute(random: &mut Random, spread: Spread) -> u64 {
    match spread {
        Spread::Whole => random.next() % 60,
        Spread::Fine => random.next() % 1_000_000,
        Spread::Tiny => random.next() % 2,
        Spread::Huge => NEVER - random.next() % 4,
        Spread::Any | Spread::Mixed => random.next() & NEVER,
    }
}

fn finite_double(random: &mut Random, spread: Spread) -> u64 {
    let bits = random.next();
    let fraction = bits & ((1 << 52) - 1);
    let of_exponent = |exponent: u64| bits & SIGN | exponent << 52 | fraction;
    match spread {
        Spread::Whole => ((bits % 9) as f64 - 4.0).to_bits() ^ (random.next() & SIGN),
        Spread::Fine => of_exponent(1020 + random.next() % 4),
        Spread::Tiny if random.chance(20) => bits & SIGN | (random.next() % 3),
        Spread::Tiny => of_exponent(random.next() % 3),
        Spread::Huge => of_exponent(2046 - random.next() % 3),
        Spread::Any | Spread::Mixed => of_exponent(random.next() % 2047),
    }
}

fn diagonal(random: &mut Random, kind: u8, spread: Spread) -> u64 {
    if kind == MINUTES {
        return 0;
    }
    loop {
        let bits = figure(random, kind, spread);
        if bits & !SIGN != 0 {
            return bits;
        }
    }
}

/// A double that is not finite.
fn not_finite(random: &mut Random) -> u64 {
    let payload = random.next() & ((1 << 52) - 1) | 1;
    let patterns = [0, 0, 1, 1 << 51, (1 << 52) - 1, payload];
    random.next() & SIGN | INFINITY | random.pick(&patterns)
}

// ------------------------------------------------------------ whole cases

fn whole_draft(random: &mut Random) -> Draft {
    let rows = match random.below(100) {
        0..6 => 1,
        6..60 => random.between(2, 10),
        60..90 => random.between(11, 40),
        90..97 => random.between(41, 150),
        _ => random.between(151, 700),
    };
    let links = mesh(random, rows);
    let stored = store(random, rows, &links);
    let tiles = match random.below(10) {
        0 => 1,
        1..6 => random.between(2, 6),
        6..9 => random.between(7, 63),
        _ => 64,
    };
    let kind = random.pick(&[DOUBLES, DOUBLES, MINUTES]);
    let draft = fill_draft(random, kind, tiles, &stored);
    if draft.to_file().len() > LONGEST_INPUT {
        whole_draft(random)
    } else {
        draft
    }
}

/// Numbers the rows anew at times, so that neighbours stand far apart.
fn renumber(random: &mut Random, rows: usize) -> Vec<usize> {
    let mut numbers: Vec<usize> = (0..rows).collect();
    match random.below(4) {
        0 => random.shuffle(&mut numbers),
        1 => numbers.reverse(),
        _ => (),
    }
    numbers
}

fn fill_draft(random: &mut Random, kind: u8, tiles: usize, stored: &[Vec<usize>]) -> Draft {
    let sweeps = match random.below(10) {
        0 => 1,
        1..7 => random.between(2, 6),
        7..9 => random.between(7, 15),
        _ => 16,
    };
    let inner_sweep = random.between(1, sweeps);
    let mut draft = Draft {
        version: 1,
        kind,
        sweeps: sweeps as u8,
        seed_sweep: random.pick(&[1, inner_sweep, sweeps]) as u8,
        tiles: tiles as u8,
        rows: stored.len() as u32,
        entries: 0,
        row_starts: vec![0],
        columns: Vec::new(),
        coefficients: Vec::new(),
        right_hand_side: Vec::new(),
        vector: Vec::new(),
        seed: Vec::new(),
    };
    add_rows(random, &mut draft, stored);
    add_figures(random, &mut draft);
    draft
}

fn add_rows(random: &mut Random, draft: &mut Draft, stored: &[Vec<usize>]) {
    let seed = seed_cells(random, stored.len(), usize::from(draft.tiles));
    let numbers = renumber(random, stored.len());
    let mut old_rows: Vec<usize> = (0..stored.len()).collect();
    old_rows.sort_by_key(|&row| numbers[row]);
    for row in old_rows {
        draft
            .columns
            .extend(stored[row].iter().map(|&column| numbers[column] as u32));
        draft.row_starts.push(draft.columns.len() as u32);
        draft.seed.push(seed[row] as u8);
    }
    draft.entries = draft.columns.len() as u32;
}

fn add_figures(random: &mut Random, draft: &mut Draft) {
    let kind = draft.kind;
    let of_matrix = if random.chance(50) {
        Spread::Fine
    } else {
        random.pick(&SPREADS)
    };
    let of_rows = random.pick(&[of_matrix, Spread::Fine, Spread::Mixed]);
    for (entry, row) in draft.entries_with_rows() {
        let on_diagonal = draft.columns[entry] as usize == row;
        let draw = if on_diagonal { diagonal } else { figure };
        draft.coefficients.push(draw(random, kind, of_matrix));
    }
    for _ in 0..draft.rows {
        draft.right_hand_side.push(figure(random, kind, of_rows));
        draft.vector.push(figure(random, kind, of_rows));
    }
}

/// A whole file of exactly some length about the longest input.
fn whole_file_of_length(random: &mut Random, length: usize) -> Vec<u8> {
    let kind = if length == LONGEST_INPUT - 1 {
        DOUBLES
    } else {
        MINUTES
    };
    let (per_entry, per_row) = (4 + width(kind), 5 + 2 * width(kind));
    let for_entries = |rows: usize| length - 21 - per_row * rows;
    let mut sizes: Vec<usize> = (2..(length - 21) / (per_row + per_entry)).collect();
    sizes.retain(|&rows| for_entries(rows) % per_entry == 0);
    let rows = random.pick(&sizes);
    let mut stored: Vec<Vec<usize>> = (0..rows).map(|row| vec![row]).collect();
    for _ in rows..for_entries(rows) / per_entry {
        let row = random.below(rows);
        let reach = random.between(1, rows.min(5) - 1);
        stored[row].push((row + reach) % rows);
    }
    let tiles = random.between(1, 64);
    fill_draft(random, kind, tiles, &stored).to_file()
}

// ---------------------------------------------------------------- damage

type Damage = fn(&mut Random, &mut Draft);

const DAMAGES: [Damage; 12] = [
    wrong_form,
    wrong_size,
    other_size,
    wrong_row_start,
    wrong_row_start,
    wrong_column,
    no_own_column,
    own_column_twice,
    wrong_seed,
    wrong_figure,
    wrong_figure,
    wrong_diagonal,
];

fn wrong_form(random: &mut Random, draft: &mut Draft) {
    let other = random.pick(&[0, 1, 2, 3, 255]);
    if random.chance(50) {
        draft.version = other;
    } else {
        draft.kind = other;
    }
}

fn wrong_size(random: &mut Random, draft: &mut Draft) {
    match random.below(5) {
        0 => draft.rows = random.pick(&[0, 1_048_576, 1_048_577, u32::MAX]),
        1 => draft.entries = random.pick(&[0, 16_777_216, 16_777_217, u32::MAX]),
        2 => draft.sweeps = random.pick(&[0, 17, 255]),
        3 => draft.tiles = random.pick(&[0, 65, 255]),
        _ => draft.seed_sweep = random.pick(&[0, draft.sweeps.saturating_add(1), 255]),
    }
}

/// Another size that can be right in itself.
fn other_size(random: &mut Random, draft: &mut Draft) {
    let step = random.pick(&[1, u32::MAX]);
    match random.below(5) {
        0 => draft.rows = draft.rows.wrapping_add(step),
        1 => draft.entries = draft.entries.wrapping_add(step),
        2 => draft.sweeps = random.between(1, 16) as u8,
        3 => draft.tiles = random.between(1, 64) as u8,
        _ => draft.seed_sweep = random.between(1, 16) as u8,
    }
}

fn wrong_row_start(random: &mut Random, draft: &mut Draft) {
    let last = draft.row_starts.len() - 1;
    let inner = random.below(last + 1);
    let index = random.pick(&[0, inner, last]);
    let start = draft.row_starts[index];
    let wrong = [
        start.wrapping_add(1),
        start.wrapping_sub(1),
        draft.entries,
        0,
        u32::MAX,
    ];
    draft.row_starts[index] = random.pick(&wrong);
}

fn wrong_column(random: &mut Random, draft: &mut Draft) {
    let entry = random.below(draft.columns.len());
    draft.columns[entry] = random.pick(&[draft.rows, draft.rows.wrapping_add(1), 255, u32::MAX]);
}

fn no_own_column(random: &mut Random, draft: &mut Draft) {
    let entry = draft.own_entry(random);
    let rows = draft.seed.len() as u32;
    draft.columns[entry] = draft.columns[entry].wrapping_add(1) % rows;
}

fn own_column_twice(random: &mut Random, draft: &mut Draft) {
    let entry = draft.own_entry(random);
    if random.chance(50) {
        let neighbour = (entry + 1) % draft.columns.len();
        draft.columns[neighbour] = draft.columns[entry];
        return;
    }
    draft.columns.insert(entry, draft.columns[entry]);
    draft.coefficients.insert(entry, draft.coefficients[entry]);
    draft.entries = draft.entries.wrapping_add(1);
    for start in draft
        .row_starts
        .iter_mut()
        .filter(|start| **start as usize > entry)
    {
        *start = start.wrapping_add(1);
    }
}

fn wrong_seed(random: &mut Random, draft: &mut Draft) {
    let row = random.below(draft.seed.len());
    draft.seed[row] = random.pick(&[draft.tiles, draft.tiles.saturating_add(1), 64, 255]);
}

fn wrong_figure(random: &mut Random, draft: &mut Draft) {
    let times = random.between(1, 2);
    for _ in 0..times {
        let wrong = not_finite(random);
        let table = match random.below(3) {
            0 => &mut draft.coefficients,
            1 => &mut draft.right_hand_side,
            _ => &mut draft.vector,
        };
        let place = random.below(table.len());
        table[place] = wrong;
    }
}

fn wrong_diagonal(random: &mut Random, draft: &mut Draft) {
    let entry = draft.own_entry(random);
    let wrong = match draft.kind {
        MINUTES => [1, NEVER - 1, NEVER],
        _ => [0, SIGN, not_finite(random)],
    };
    draft.coefficients[entry] = random.pick(&wrong);
}

fn damaged_file(random: &mut Random) -> Vec<u8> {
    let mut draft = whole_draft(random);
    let times = random.pick(&[1, 1, 1, 2, 3]);
    for _ in 0..times {
        if draft.has_rows() {
            random.pick(&DAMAGES)(random, &mut draft);
        }
    }
    draft.to_file()
}

fn change_bytes(random: &mut Random, mut file: Vec<u8>) -> Vec<u8> {
    let header_only = random.chance(30);
    let times = random.between(1, 4);
    for _ in 0..times {
        let offset = random.below(if header_only { 17 } else { file.len() });
        file[offset] = match random.below(3) {
            0 => random.next() as u8,
            1 => file[offset] ^ 1 << random.below(8),
            _ => file[offset].wrapping_add(random.pick(&[1, 255])),
        };
    }
    file
}

fn change_length(random: &mut Random, mut file: Vec<u8>) -> Vec<u8> {
    match random.below(4) {
        0 => file.truncate(random.below(file.len())),
        1 => file.truncate(file.len() - random.between(1, 8).min(file.len())),
        _ => file.resize(
            file.len() + random.pick(&[1, 2, 4, 8, 100]),
            random.next() as u8,
        ),
    }
    if file.len() >= 4 && random.chance(70) {
        tell_length(&mut file);
    }
    file
}

/// No bytes or a few of them, at times with the right number at the front.
fn short_file(random: &mut Random) -> Vec<u8> {
    let any = random.below(40);
    let length = random.pick(&[0, 0, 16, 17, 18, any]);
    let mut file: Vec<u8> = (0..length).map(|_| random.below(4) as u8).collect();
    if length >= 4 && random.chance(80) {
        tell_length(&mut file);
    }
    file
}

fn padded_file(random: &mut Random) -> Vec<u8> {
    let mut file = whole_draft(random).to_file();
    file.resize(LONGEST_INPUT + random.pick(&[0, 1, 2, 70_000]), 0);
    if random.chance(80) {
        tell_length(&mut file);
    }
    file
}

/// A case file; about six in ten are whole.
pub fn case_file(random: &mut Random) -> Vec<u8> {
    match random.below(1000) {
        0..10 => {
            let length = LONGEST_INPUT + random.below(3) - 1;
            whole_file_of_length(random, length)
        }
        10..20 => padded_file(random),
        20..35 => short_file(random),
        35..80 => {
            let file = whole_draft(random).to_file();
            change_length(random, file)
        }
        80..180 => {
            let file = whole_draft(random).to_file();
            change_bytes(random, file)
        }
        180..450 => damaged_file(random),
        _ => whole_draft(random).to_file(),
    }
}

// ------------------------------------------------------------ tile calls

/// All tiles in an order in which no call is refused.
pub fn lawful_order(random: &mut Random, wait_words: &[u64]) -> Vec<u8> {
    let mut done = 0;
    let mut order = Vec::new();
    while order.len() < wait_words.len() {
        let ready = ready_tiles(wait_words, done);
        let tile = random.pick(&ready);
        done |= 1 << tile;
        order.push(tile);
    }
    order
}

pub fn ready_tiles(wait_words: &[u64], done: u64) -> Vec<u8> {
    let is_ready = |&tile: &u8| done >> tile & 1 == 0 && wait_words[tile as usize] & !done == 0;
    (0..wait_words.len() as u8).filter(is_ready).collect()
}

/// A list of tile calls, lawful or not.
pub fn tile_calls(random: &mut Random, wait_words: &[u64]) -> Vec<u8> {
    let tiles = wait_words.len();
    let mut calls = match random.below(10) {
        0 => Vec::new(),
        1 => (0..tiles as u8).collect(),
        2 => (0..tiles as u8).rev().collect(),
        3 => (0..random.below(2 * tiles + 4))
            .map(|_| random.below(tiles) as u8)
            .collect(),
        4 => (0..random.below(20)).map(|_| random.next() as u8).collect(),
        _ => lawful_order(random, wait_words),
    };
    match random.below(5) {
        0 => insert_calls(random, &mut calls, tiles),
        1 => insert_calls(random, &mut calls, 256),
        2 => calls.truncate(random.below(calls.len() + 1)),
        3 if calls.len() > 1 => {
            let (first, second) = (random.below(calls.len()), random.below(calls.len()));
            calls.swap(first, second);
        }
        _ => (),
    }
    calls
}

fn insert_calls(random: &mut Random, calls: &mut Vec<u8>, bound: usize) {
    let times = random.between(1, 4);
    for _ in 0..times {
        let number = random.below(bound) as u8;
        calls.insert(random.below(calls.len() + 1), number);
    }
}
