// The baseline for lays and shows: the same canvas of cells, the same two passes over a window and the same answers, in plain Rust.
use std::time::Instant;

const WIDE: usize = 1024;
const HIGH: usize = 64;
const OBJECTS: u16 = 64;

trait Colour: Copy {
    const BYTES: usize;
    fn blend(self, above: Self, cover: u8) -> Self;
    fn show(self, out: &mut [u8]);
}

fn shade(below: u8, above: u8, cover: u8) -> u8 {
    ((below as u32 * (255 - cover as u32) + above as u32 * cover as u32 + 127) / 255) as u8
}

#[derive(Clone, Copy)]
struct Grey(u8);

impl Colour for Grey {
    const BYTES: usize = 1;
    fn blend(self, above: Grey, cover: u8) -> Grey {
        Grey(shade(self.0, above.0, cover))
    }
    fn show(self, out: &mut [u8]) {
        out[0] = self.0;
    }
}

#[derive(Clone, Copy)]
struct Tint(u8, u8, u8);

impl Colour for Tint {
    const BYTES: usize = 3;
    fn blend(self, above: Tint, cover: u8) -> Tint {
        Tint(shade(self.0, above.0, cover), shade(self.1, above.1, cover), shade(self.2, above.2, cover))
    }
    fn show(self, out: &mut [u8]) {
        out.copy_from_slice(&[self.0, self.1, self.2]);
    }
}

#[derive(Clone, Copy)]
enum Paper {
    Blank,
    Ink,
}

impl Colour for Paper {
    const BYTES: usize = 1;
    fn blend(self, above: Paper, cover: u8) -> Paper {
        if cover >= 128 { above } else { self }
    }
    fn show(self, out: &mut [u8]) {
        out[0] = matches!(self, Paper::Ink) as u8;
    }
}

enum Look<S> {
    Outside,
    #[allow(dead_code)]
    Missing,
    Found(S),
}

trait Source {
    type Sample: Copy;
    fn look(&self, column: usize, row: usize) -> Look<Self::Sample>;
}

struct Uniform<S>(usize, usize, S);

impl<S: Copy> Source for Uniform<S> {
    type Sample = S;
    fn look(&self, column: usize, row: usize) -> Look<S> {
        if column < self.0 && row < self.1 { Look::Found(self.2) } else { Look::Outside }
    }
}

struct Covers<'a>(usize, usize, &'a [u8]);

impl Source for Covers<'_> {
    type Sample = u8;
    fn look(&self, column: usize, row: usize) -> Look<u8> {
        if column < self.0 && row < self.1 { Look::Found(self.2[row * self.0 + column]) } else { Look::Outside }
    }
}

struct Bits<'a>(usize, usize, &'a [u8]);

impl Source for Bits<'_> {
    type Sample = u8;
    fn look(&self, column: usize, row: usize) -> Look<u8> {
        if column < self.0 && row < self.1 {
            let byte = self.2[row * self.0.div_ceil(8) + column / 8];
            Look::Found(if byte & (128 >> (column % 8)) != 0 { 255 } else { 0 })
        } else {
            Look::Outside
        }
    }
}

struct Triples<'a>(usize, usize, &'a [u8]);

impl Source for Triples<'_> {
    type Sample = Tint;
    fn look(&self, column: usize, row: usize) -> Look<Tint> {
        if column < self.0 && row < self.1 {
            let at = 3 * (row * self.0 + column);
            let bytes = &self.2[at..at + 3];
            Look::Found(Tint(bytes[0], bytes[1], bytes[2]))
        } else {
            Look::Outside
        }
    }
}

#[derive(Clone, Copy)]
struct Cell<C> {
    colour: C,
    level: u16,
}

// Where a layout object stands: its rectangle. Mask and image begin at its corner.
#[derive(Clone, Copy)]
struct Place {
    left: usize,
    top: usize,
    width: usize,
    height: usize,
}

enum Touch<C> {
    Bare,
    MaskMissing,
    ImageMissing,
    Dab(C, u8),
}

#[derive(Debug)]
#[allow(dead_code)]
enum Refusal {
    Window,
    OutOfTurn(usize, usize, u16),
    Buffer,
    MaskMissing(usize, usize),
    ImageMissing(usize, usize),
}

fn touch<C, M: Source<Sample = u8>, I: Source<Sample = C>>(place: Place, mask: &M, image: &I, column: usize, row: usize) -> Touch<C> {
    if column < place.left || row < place.top || column - place.left >= place.width || row - place.top >= place.height {
        return Touch::Bare;
    }
    let (column, row) = (column - place.left, row - place.top);
    match mask.look(column, row) {
        Look::Outside | Look::Found(0) => Touch::Bare,
        Look::Missing => Touch::MaskMissing,
        Look::Found(cover) => match image.look(column, row) {
            Look::Outside => Touch::Bare,
            Look::Missing => Touch::ImageMissing,
            Look::Found(colour) => Touch::Dab(colour, cover),
        },
    }
}

struct Canvas<'a, C> {
    cells: &'a mut [Cell<C>],
    wide: usize,
    high: usize,
}

type Window = (usize, usize, usize, usize);

impl<'a, C: Colour> Canvas<'a, C> {
    fn open(cells: &'a mut [Cell<C>], wide: usize, high: usize, colour: C) -> Self {
        cells[..wide * high].fill(Cell { colour, level: 0 });
        Canvas { cells, wide, high }
    }

    fn passes(&self, (left, top, right, bottom): Window) -> bool {
        left <= right && right <= self.wide && top <= bottom && bottom <= self.high
    }

    fn lay<M: Source<Sample = u8>, I: Source<Sample = C>>(&mut self, k: u16, place: Place, window: Window, mask: &M, image: &I) -> Result<(u64, u64), Refusal> {
        if !self.passes(window) {
            return Err(Refusal::Window);
        }
        let (left, top, right, bottom) = window;
        let mut missing = None;
        for row in top..bottom {
            for (cell, column) in self.cells[row * self.wide..][left..right].iter().zip(left..) {
                if cell.level < k {
                    return Err(Refusal::OutOfTurn(column, row, cell.level));
                }
                if cell.level == k && missing.is_none() {
                    missing = match touch(place, mask, image, column, row) {
                        Touch::MaskMissing => Some(Refusal::MaskMissing(column, row)),
                        Touch::ImageMissing => Some(Refusal::ImageMissing(column, row)),
                        _ => None,
                    };
                }
            }
        }
        if let Some(refusal) = missing {
            return Err(refusal);
        }
        let (mut raised, mut passed) = (0, 0);
        for row in top..bottom {
            for (cell, column) in self.cells[row * self.wide..][left..right].iter_mut().zip(left..) {
                if cell.level != k {
                    passed += 1;
                    continue;
                }
                if let Touch::Dab(colour, cover) = touch(place, mask, image, column, row) {
                    cell.colour = cell.colour.blend(colour, cover);
                }
                cell.level = k + 1;
                raised += 1;
            }
        }
        Ok((raised, passed))
    }

    fn show(&self, window: Window, buffer: &mut [u8]) -> Result<u64, Refusal> {
        if !self.passes(window) {
            return Err(Refusal::Window);
        }
        let (left, top, right, bottom) = window;
        let wide = right - left;
        if buffer.len() < wide * (bottom - top) * C::BYTES {
            return Err(Refusal::Buffer);
        }
        let mut finished = 0;
        for (row, out) in (top..bottom).zip(buffer.chunks_exact_mut(wide * C::BYTES)) {
            for (cell, bytes) in self.cells[row * self.wide..][left..right].iter().zip(out.chunks_exact_mut(C::BYTES)) {
                cell.colour.show(bytes);
                finished += (cell.level == OBJECTS) as u64;
            }
        }
        Ok(finished)
    }
}

fn draw<C: Colour, M: Source<Sample = u8>, I: Source<Sample = C>>(cells: &mut [Cell<C>], colour: C, count: u32, mask: &M, image: &I, buffer: &mut [u8]) -> u64 {
    let page = (0, 0, WIDE, HIGH);
    let mut canvas = Canvas::open(cells, WIDE, HIGH, colour);
    for k in 0..count as usize {
        let place = Place { left: k % 16, top: k % 4, width: WIDE, height: HIGH };
        canvas.lay(k as u16, place, page, mask, image).expect("a lay");
    }
    let _ = canvas.show(page, buffer);
    canvas.cells.iter().map(|cell| (cell.level == OBJECTS) as u64).sum()
}

unsafe extern "C" {
    // the library's drawing of the same sheet
    fn draw_grey(file: *const u8, length: usize, wide: u16, high: u16, count: u32, covers: *const u8, n: usize, shade: u8, buffer: *mut u8, size: usize) -> u64;
    fn draw_tint(file: *const u8, length: usize, wide: u16, high: u16, count: u32, covers: *const u8, n: usize, tints: *const u8, m: usize, buffer: *mut u8, size: usize) -> u64;
    fn draw_paper(file: *const u8, length: usize, wide: u16, high: u16, count: u32, covers: *const u8, n: usize, buffer: *mut u8, size: usize) -> u64;
}

// The shortest time of each of two functions, called in turn.
fn shortest(turns: u32, mut ours: impl FnMut(), mut theirs: impl FnMut()) -> (u128, u128) {
    let mut best = (u128::MAX, u128::MAX);
    for _ in 0..turns {
        let start = Instant::now();
        ours();
        best.0 = best.0.min(start.elapsed().as_nanos());
        let start = Instant::now();
        theirs();
        best.1 = best.1.min(start.elapsed().as_nanos());
    }
    best
}

fn report(name: &str, what: &str, times: (u128, u128), without: (u128, u128), cells: u128) {
    let ours = times.0.saturating_sub(without.0) as f64 / cells as f64;
    let theirs = times.1.saturating_sub(without.1) as f64 / cells as f64;
    println!("{name:28} {what}: library {ours:.2} ns a cell, plain Rust {theirs:.2}, ratio {:.2}", ours / theirs);
}

// Draws with both, compares what they show, and prints the time of a lay and of a show, each without the opening.
fn compare(name: &str, bytes: usize, turns: u32, mut ours: impl FnMut(u32, &mut [u8]) -> u64, mut theirs: impl FnMut(u32, &mut [u8]) -> u64) {
    let size = WIDE * HIGH * bytes;
    let (mut one, mut other) = (vec![0; size], vec![0; size]);
    for count in [0, 1, 5, OBJECTS as u32] {
        assert_eq!(ours(count, &mut one), theirs(count, &mut other));
        assert!(one == other, "{name}: the pictures differ after {count} objects");
    }
    let (ours, theirs) = (std::cell::RefCell::new(ours), std::cell::RefCell::new(theirs));
    let mut time = |count, length| {
        shortest(
            turns,
            || {
                (ours.borrow_mut())(count, &mut one[..length]);
            },
            || {
                (theirs.borrow_mut())(count, &mut other[..length]);
            },
        )
    };
    let opened = time(0, 0);
    report(name, "lay ", time(OBJECTS as u32, 0), opened, (WIDE * HIGH) as u128 * OBJECTS as u128);
    report(name, "show", time(0, size), opened, (WIDE * HIGH) as u128);
}

fn main() {
    let path = std::env::args().nth(1).expect("a file");
    let turns: u32 = std::env::args().nth(2).map_or(50, |n| n.parse().expect("a number"));
    let file = std::fs::read(path).expect("the file");
    let room = WIDE * HIGH;
    // covers of every amount, with some points bare
    let covers: Vec<u8> = (0..room).map(|i| ((i * 7919) >> 3) as u8).collect();
    let tints: Vec<u8> = (0..3 * room).map(|i| ((i * 104729) >> 5) as u8).collect();
    let bits = &covers[..room / 8];
    let (w, h) = (WIDE as u16, HIGH as u16);
    let mut greys = vec![Cell { colour: Grey(0), level: 0 }; room];
    compare(
        "byte mask over uniform grey",
        1,
        turns,
        |count, out| unsafe { draw_grey(file.as_ptr(), file.len(), w, h, count, covers.as_ptr(), room, 40, out.as_mut_ptr(), out.len()) },
        |count, out| draw(&mut greys, Grey(255), count, &Covers(WIDE, HIGH, &covers), &Uniform(WIDE, HIGH, Grey(40)), out),
    );
    let mut colours = vec![Cell { colour: Tint(0, 0, 0), level: 0 }; room];
    compare(
        "byte mask over tint triples",
        3,
        turns,
        |count, out| unsafe { draw_tint(file.as_ptr(), file.len(), w, h, count, covers.as_ptr(), room, tints.as_ptr(), 3 * room, out.as_mut_ptr(), out.len()) },
        |count, out| draw(&mut colours, Tint(255, 255, 255), count, &Covers(WIDE, HIGH, &covers), &Triples(WIDE, HIGH, &tints), out),
    );
    let mut papers = vec![Cell { colour: Paper::Blank, level: 0 }; room];
    compare(
        "bit mask over ink",
        1,
        turns,
        |count, out| unsafe { draw_paper(file.as_ptr(), file.len(), w, h, count, bits.as_ptr(), bits.len(), out.as_mut_ptr(), out.len()) },
        |count, out| draw(&mut papers, Paper::Blank, count, &Bits(WIDE, HIGH, bits), &Uniform(WIDE, HIGH, Paper::Ink), out),
    );
}
