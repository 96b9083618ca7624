//! Lines from a stream, in bounded memory whatever the stream holds.

use std::io::{self, ErrorKind, Read};

const CHUNK: usize = 1 << 16;

/// How a piece of the stream ended.
#[derive(Clone, Copy, Debug, PartialEq, Eq)]
pub enum Piece {
    Line,
    /// A line with more bytes than the limit; only that many were kept.
    TooLong,
    /// Bytes behind the last LF.
    Unended,
}

pub struct Lines<R> {
    source: R,
    limit: usize,
    chunk: Vec<u8>,
    start: usize,
    end: usize,
}

impl<R: Read> Lines<R> {
    /// The lines of a stream, each kept up to this many bytes.
    pub fn new(source: R, limit: usize) -> Lines<R> {
        Lines { source, limit, chunk: vec![0; CHUNK], start: 0, end: 0 }
    }

    /// Whether the next line may have to wait for the stream: the time to flush.
    pub fn must_wait(&self) -> bool {
        !self.chunk[self.start..self.end].contains(&b'\n')
    }

    /// The next piece, its bytes in `line` without the LF; none at the end.
    pub fn next(&mut self, line: &mut Vec<u8>) -> io::Result<Option<Piece>> {
        line.clear();
        let mut seen = 0;
        loop {
            let rest = &self.chunk[self.start..self.end];
            let length = rest.iter().position(|byte| *byte == b'\n').unwrap_or(rest.len());
            let ended = length < rest.len();
            seen += length;
            line.extend_from_slice(&rest[..length.min(self.limit - line.len())]);
            self.start += length + usize::from(ended);
            if ended {
                return Ok(Some(if seen > self.limit { Piece::TooLong } else { Piece::Line }));
            }
            if !self.refill()? {
                return Ok((seen > 0).then_some(Piece::Unended));
            }
        }
    }

    /// Reads the next chunk; tells whether there was one.
    fn refill(&mut self) -> io::Result<bool> {
        self.start = 0;
        self.end = read_some(&mut self.source, &mut self.chunk)?;
        Ok(self.end > 0)
    }
}

/// Reads what is there, however often a signal comes between.
fn read_some(source: &mut impl Read, buffer: &mut [u8]) -> io::Result<usize> {
    loop {
        match source.read(buffer) {
            Err(error) if error.kind() == ErrorKind::Interrupted => {}
            result => return result,
        }
    }
}

/// Fills the buffer as far as the stream goes, asking for no byte more.
pub fn read_up_to(source: &mut impl Read, buffer: &mut [u8]) -> io::Result<usize> {
    let mut length = 0;
    while length < buffer.len() {
        match read_some(source, &mut buffer[length..])? {
            0 => break,
            more => length += more,
        }
    }
    Ok(length)
}

#[cfg(test)]
mod tests {
    use super::*;

    /// Every piece of an input.
    fn pieces(input: &[u8], limit: usize) -> Vec<(Piece, Vec<u8>)> {
        let mut lines = Lines::new(input, limit);
        let mut line = Vec::new();
        let mut found = Vec::new();
        while let Some(piece) = lines.next(&mut line).unwrap() {
            found.push((piece, line.clone()));
        }
        found
    }

    #[test]
    fn lines_and_a_last_piece() {
        let expected = vec![
            (Piece::Line, b"ab".to_vec()),
            (Piece::Line, b"".to_vec()),
            (Piece::TooLong, b"abc".to_vec()),
            (Piece::Line, b"xyz".to_vec()),
            (Piece::Unended, b"q".to_vec()),
        ];
        assert_eq!(pieces(b"ab\n\nabcd\nxyz\nq", 3), expected);
    }

    #[test]
    fn a_line_across_many_chunks_is_too_long() {
        let mut input = vec![b'a'; 3 * CHUNK];
        input.extend_from_slice(b"\nS\n");
        let found = pieces(&input, 10);
        assert_eq!(found[0], (Piece::TooLong, vec![b'a'; 10]));
        assert_eq!(found[1], (Piece::Line, b"S".to_vec()));
        assert_eq!(found.len(), 2);
    }

    #[test]
    fn reading_stops_when_the_buffer_is_full() {
        let mut source: &[u8] = b"abcdef";
        let mut buffer = [0; 4];
        assert_eq!(read_up_to(&mut source, &mut buffer).unwrap(), 4);
        assert_eq!(source, b"ef");
    }
}
