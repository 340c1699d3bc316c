//! Making a failing file small: fewer requests or events, fewer bytes, lower numbers.

use second::gen::{piece, Pieces};
use second::request::read_request;

/// So many bytes are tried in all: a minute or so for a file that stays long, plenty for others.
const MOST_BYTES: usize = 50_000_000;

/// What is searched for, and how many more bytes may be tried.
struct Search<F> {
    differs: F,
    left: usize,
}

impl<F: FnMut(&[u8]) -> bool> Search<F> {
    /// Whether the file of these pieces still differs.
    fn finds(&mut self, pieces: &Pieces) -> bool {
        let file = pieces.concat();
        self.left = self.left.saturating_sub(file.len());
        (self.differs)(&file)
    }
}

/// The smallest file found that still differs, starting from one that does.
pub fn shrink(mut file: Vec<u8>, differs: impl FnMut(&[u8]) -> bool) -> Vec<u8> {
    let mut search = Search { differs, left: MOST_BYTES };
    // Each change makes the file shorter, or as long and lower when read from its end: it ends.
    loop {
        let before = file.clone();
        for split in [whole, single] {
            let pieces = drop_runs(split(&file), &mut search);
            file = lower(pieces, &mut search).concat();
        }
        if file == before {
            return file;
        }
    }
}

/// The requests of a file, and the bytes after them one by one; events are spelled the same way.
fn whole(file: &[u8]) -> Pieces {
    let mut pieces = Pieces::new();
    let mut rest = file;
    while let Ok(Some((_, length))) = read_request(rest) {
        pieces.push(rest[..length].to_vec());
        rest = &rest[length..];
    }
    pieces.extend(single(rest));
    pieces
}

/// A file's bytes one by one.
fn single(file: &[u8]) -> Pieces {
    file.iter().map(|&byte| vec![byte]).collect()
}

/// Drops runs of pieces, long runs first and from the end, while the file still differs.
fn drop_runs<F: FnMut(&[u8]) -> bool>(mut pieces: Pieces, search: &mut Search<F>) -> Pieces {
    let mut run = pieces.len();
    while run > 0 {
        let mut end = pieces.len();
        while end > 0 && search.left > 0 {
            let start = end.saturating_sub(run);
            let fewer = [&pieces[..start], &pieces[end..]].concat();
            if search.finds(&fewer) {
                pieces = fewer;
            }
            end = start;
        }
        run /= 2;
    }
    pieces
}

/// Lowers the numbers of each piece while the file still differs.
fn lower<F: FnMut(&[u8]) -> bool>(mut pieces: Pieces, search: &mut Search<F>) -> Pieces {
    for place in 0..pieces.len() {
        while search.left > 0 && lower_one(&mut pieces, place, search) {}
    }
    pieces
}

/// Lowers a number of one piece, if the file then still differs.
fn lower_one<F: FnMut(&[u8]) -> bool>(
    pieces: &mut Pieces,
    place: usize,
    search: &mut Search<F>,
) -> bool {
    for lowered in lowered(&pieces[place]) {
        let before = std::mem::replace(&mut pieces[place], lowered);
        if search.finds(pieces) {
            return true;
        }
        pieces[place] = before;
    }
    false
}

/// A piece with one of its numbers 0, halved or less by one; a byte alone is a number too.
fn lowered(bytes: &[u8]) -> Pieces {
    if let [byte] = *bytes {
        return below(u32::from(byte)).map(|value| vec![value as u8]).collect();
    }
    let Ok(Some((request, _))) = read_request(bytes) else {
        return Pieces::new();
    };
    let mut numbers = vec![request.seat()];
    numbers.extend(request.record());
    let mut pieces = Pieces::new();
    for place in 0..numbers.len() {
        for value in below(numbers[place]) {
            let mut lower = numbers.clone();
            lower[place] = value;
            pieces.push(piece(request.kind(), &lower));
        }
    }
    pieces
}

/// The numbers to try in place of another, lowest first.
fn below(value: u32) -> impl Iterator<Item = u32> {
    let tried = [0, value / 2, value.saturating_sub(1)];
    tried.into_iter().filter(move |&lower| lower < value)
}
