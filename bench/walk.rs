// The baseline for reading: the same walk over the boxes of a JPM file, with the same tests in the same order, in plain Rust.
use std::time::Instant;

#[derive(Clone, Copy, PartialEq)]
enum Place {
    File,
    Page,
    Res,
    Lobj,
    Objc,
}

type Fault = (u8, u8, usize);

fn layer(place: Place) -> u8 {
    match place {
        Place::File => 0,
        Place::Page | Place::Res => 1,
        Place::Lobj => 2,
        Place::Objc => 3,
    }
}

fn u16_at(b: &[u8], at: usize) -> u16 {
    u16::from_be_bytes(b[at..at + 2].try_into().unwrap())
}

fn u32_at(b: &[u8], at: usize) -> u32 {
    u32::from_be_bytes(b[at..at + 4].try_into().unwrap())
}

fn u64_at(b: &[u8], at: usize) -> u64 {
    u64::from_be_bytes(b[at..at + 8].try_into().unwrap())
}

#[derive(Default, Clone, Copy)]
struct Object {
    fields: (u16, u16, u16, u32, u32, u64, u32, u16),
}

#[derive(Default, Clone, Copy)]
struct Row {
    layout: (u16, u32, u32, u32, u32, u16),
    objects: [Option<Object>; 2],
}

#[derive(Clone)]
struct Page {
    header: Option<(u16, u16, u32, u32, u16, u16)>,
    collection: Option<(u64, u32, u16)>,
    resolution: Option<(u16, u16, u16, u16, i8, i8)>,
    rows: [Row; 64],
    count: usize,
}

fn boxes(place: Place, b: &[u8], at: usize, mut take: impl FnMut(&[u8], usize, usize, &[u8], bool) -> Result<(), Fault>) -> Result<(), Fault> {
    let (mut rest, mut at, mut first) = (b, at, true);
    while !rest.is_empty() {
        let fault = |n| Err((n, layer(place), at));
        if rest.len() < 8 {
            return fault(1);
        }
        let (size, head) = match u32_at(rest, 0) {
            0 if place != Place::File => return fault(2),
            0 => (rest.len(), 8),
            1 if rest.len() < 16 => return fault(1),
            1 => (u64_at(rest, 8) as usize, 16),
            n => (n as usize, 8),
        };
        if size > rest.len() {
            return fault(1);
        }
        if size < head {
            return fault(2);
        }
        take(&rest[4..8], at, at + head, &rest[head..size], first)?;
        rest = &rest[size..];
        at += size;
        first = false;
    }
    Ok(())
}

fn object(b: &[u8], own: usize, at: usize) -> Result<Object, Fault> {
    let mut found = None;
    boxes(Place::Objc, b, at, |kind, at, _, data, first| {
        let fault = |n| Err((n, 3, at));
        match kind {
            b"ohdr" => {
                if found.is_some() || !first {
                    return fault(3);
                }
                if data.len() != 28 {
                    return fault(4);
                }
                let fields = (u16_at(data, 0), u16_at(data, 2), u16_at(data, 4), u32_at(data, 6), u32_at(data, 10), u64_at(data, 14), u32_at(data, 22), u16_at(data, 26));
                if fields.1 > 2 || fields.2 > 1 {
                    return fault(5);
                }
                found = Some(Object { fields });
                Ok(())
            }
            b"page" | b"phdr" | b"res " | b"resd" | b"lobj" | b"lhdr" | b"objc" => fault(3),
            _ => Ok(()),
        }
    })?;
    found.ok_or((3, 3, own))
}

fn layout(b: &[u8], own: usize, at: usize, earlier: &[Row]) -> Result<Row, Fault> {
    let mut head = None;
    let mut objects = [None; 2];
    let mut count = 0;
    boxes(Place::Lobj, b, at, |kind, at, body, data, first| {
        let fault = |n| Err((n, 2, at));
        match kind {
            b"lhdr" => {
                if head.is_some() || !first {
                    return fault(3);
                }
                if data.len() != 20 {
                    return fault(4);
                }
                let fields = (u16_at(data, 0), u32_at(data, 2), u32_at(data, 6), u32_at(data, 10), u32_at(data, 14), u16_at(data, 18));
                if fields.5 > 3 {
                    return fault(5);
                }
                if earlier.iter().any(|r| r.layout.0 == fields.0) {
                    return fault(7);
                }
                head = Some(fields);
                Ok(())
            }
            b"objc" => {
                if count == 2 {
                    return fault(3);
                }
                objects[count] = Some(object(data, at, body)?);
                count += 1;
                Ok(())
            }
            b"page" | b"phdr" | b"res " | b"resd" | b"lobj" | b"ohdr" => fault(3),
            _ => Ok(()),
        }
    })?;
    let Some(fields) = head else { return Err((3, 2, own)) };
    if count == 0 {
        return Err((3, 2, own));
    }
    let kinds = (objects[0].map(|o| o.fields.1), objects[1].map(|o| o.fields.1));
    match (fields.5, kinds) {
        (0, (Some(0), Some(1))) | (0, (Some(1), Some(0))) | (1, (Some(2), None)) | (2, (Some(1), None)) | (3, (Some(0), None)) => Ok(Row { layout: fields, objects }),
        _ => Err((6, 2, own)),
    }
}

fn page(b: &[u8], own: usize, at: usize) -> Result<Page, Fault> {
    let mut page = Page { header: None, collection: None, resolution: None, rows: [Row::default(); 64], count: 0 };
    boxes(Place::Page, b, at, |kind, at, body, data, first| {
        let fault = |n| Err((n, 1, at));
        match kind {
            b"phdr" => {
                if page.header.is_some() || !first {
                    return fault(3);
                }
                if data.len() != 16 && data.len() != 30 {
                    return fault(4);
                }
                let fields = (u16_at(data, 0), u16_at(data, 2), u32_at(data, 4), u32_at(data, 8), u16_at(data, 12), u16_at(data, 14));
                if fields.2 == 0 || fields.3 == 0 {
                    return fault(5);
                }
                if data.len() == 30 {
                    page.collection = Some((u64_at(data, 16), u32_at(data, 24), u16_at(data, 28)));
                }
                page.header = Some(fields);
                Ok(())
            }
            b"res " => {
                if page.resolution.is_some() {
                    return fault(3);
                }
                let mut found = None;
                boxes(Place::Res, data, body, |kind, at, _, data, _| match kind {
                    b"resd" => {
                        if found.is_some() {
                            return Err((3, 1, at));
                        }
                        if data.len() != 10 {
                            return Err((4, 1, at));
                        }
                        let fields = (u16_at(data, 0), u16_at(data, 2), u16_at(data, 4), u16_at(data, 6), data[8] as i8, data[9] as i8);
                        if fields.0 == 0 || fields.1 == 0 || fields.2 == 0 || fields.3 == 0 {
                            return Err((5, 1, at));
                        }
                        found = Some(fields);
                        Ok(())
                    }
                    b"page" | b"phdr" | b"res " | b"lobj" | b"lhdr" | b"objc" | b"ohdr" => Err((3, 1, at)),
                    _ => Ok(()),
                })?;
                page.resolution = Some(found.ok_or((3, 1, at))?);
                Ok(())
            }
            b"lobj" => {
                if page.count == 64 {
                    return fault(8);
                }
                page.rows[page.count] = layout(data, at, body, &page.rows[..page.count])?;
                page.count += 1;
                Ok(())
            }
            b"page" | b"resd" | b"lhdr" | b"objc" | b"ohdr" => fault(3),
            _ => Ok(()),
        }
    })?;
    match (page.header, page.resolution) {
        (Some(header), Some(_)) if header.1 as usize == page.count => Ok(page),
        (Some(_), Some(_)) => Err((7, 1, own)),
        _ => Err((3, 1, own)),
    }
}

fn read(file: &[u8], number: u64) -> Result<Page, Option<Fault>> {
    let (mut left, mut found) = (Some(number), None);
    boxes(Place::File, file, 0, |kind, at, body, data, _| {
        match kind {
            b"page" => {
                let read = page(data, at, body)?;
                match left {
                    Some(0) => {
                        left = None;
                        found = Some(read);
                    }
                    Some(n) => left = Some(n - 1),
                    None => {}
                }
                Ok(())
            }
            b"phdr" | b"res " | b"resd" | b"lobj" | b"lhdr" | b"objc" | b"ohdr" => Err((3, 0, at)),
            _ => Ok(()),
        }
    })
    .map_err(Some)?;
    found.ok_or(None)
}

unsafe extern "C" {
    // the library's read: 0, or the number of the refusal
    fn page_verdict(file: *const u8, length: usize, number: u64) -> u8;
}

fn main() {
    let path = std::env::args().nth(1).expect("a file");
    let turns: u32 = std::env::args().nth(2).map_or(200, |n| n.parse().expect("a number"));
    let file = std::fs::read(path).expect("the file");
    let last = 299;
    assert_eq!(unsafe { page_verdict(file.as_ptr(), file.len(), last) }, 0);
    let rows = read(&file, last).expect("a page").count;
    let (mut ours, mut theirs) = (u128::MAX, u128::MAX);
    for _ in 0..turns {
        let start = Instant::now();
        std::hint::black_box(unsafe { page_verdict(file.as_ptr(), file.len(), std::hint::black_box(last)) });
        ours = ours.min(start.elapsed().as_nanos());
        let start = Instant::now();
        let page = std::hint::black_box(read(&file, std::hint::black_box(last)));
        theirs = theirs.min(start.elapsed().as_nanos());
        drop(page);
    }
    println!("{} bytes, {rows} rows in the page: library {ours} ns, plain Rust {theirs} ns, ratio {:.2}", file.len(), ours as f64 / theirs as f64);
}
