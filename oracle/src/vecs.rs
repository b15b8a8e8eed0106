//! Files of vectors, from the customer's request for fvecs and bvecs: each vector is a little-endian
//! 32-bit count and then that many elements. The Rust has no such file.

use crate::differences::MOST_DIMS;
use crate::rules::{Kind, Refusal, View};

/// A vector in a file, and the place after it.
#[derive(Debug, PartialEq, Eq)]
pub struct Found<'a> {
    pub dims: usize,
    pub elements: &'a [u8],
    pub next: usize,
}

/// The vector at a place of a file, whose elements have so many bytes each; none at or past the end.
pub fn vector_at(width: usize, file: &[u8], place: usize) -> Result<Option<Found<'_>>, Refusal> {
    let left = file.get(place..).unwrap_or_default();
    if left.is_empty() {
        return Ok(None);
    }
    let ends_inside = || Refusal::carrying(19, place);
    let (count, rest) = left.split_first_chunk().ok_or_else(ends_inside)?;
    let dims = u32::from_le_bytes(*count) as usize;
    if dims > MOST_DIMS {
        return Err(9.into());
    }
    let elements = rest.get(..width * dims).ok_or_else(ends_inside)?;
    let next = place + count.len() + elements.len();
    Ok(Some(Found {
        dims,
        elements,
        next,
    }))
}

/// Each byte as the f32 of that number.
pub fn floats(bytes: &[u8]) -> Vec<u8> {
    bytes
        .iter()
        .flat_map(|&byte| f32::from(byte).to_le_bytes())
        .collect()
}

/// Appends a vector that was read to a file that fills the buffer so far; the new fill.
pub fn append(view: &View, buffer: &mut [u8], fill: usize) -> Result<usize, Refusal> {
    if view.kind != Kind::Float32Dense {
        return Err(13.into());
    }
    let count = (view.dims as u32).to_le_bytes();
    let vector = [&count[..], &view.body].concat();
    let room = buffer.get_mut(fill..).unwrap_or_default();
    match room.get_mut(..vector.len()) {
        Some(room) => room.copy_from_slice(&vector),
        None => return Err(Refusal::carrying(15, vector.len())),
    }
    Ok(fill + vector.len())
}

#[cfg(test)]
mod tests {
    use super::*;
    use crate::rules;

    const FAR: [usize; 3] = [1 << 32, 9_999_999_999, usize::MAX];

    /// Both formats, by the bytes of an element.
    const WIDTHS: [usize; 2] = [4, 1];

    fn ends_inside<T>(place: usize) -> Result<T, Refusal> {
        Err(Refusal::carrying(19, place))
    }

    fn refused<T>(number: u8) -> Result<T, Refusal> {
        Err(number.into())
    }

    fn need<T>(bytes: usize) -> Result<T, Refusal> {
        Err(Refusal::carrying(15, bytes))
    }

    /// A count and so many bytes after it.
    fn vector(count: u32, length: usize) -> Vec<u8> {
        [count.to_le_bytes().to_vec(), vec![7; length]].concat()
    }

    /// Dims and next place of the vector at a place.
    fn shape(width: usize, file: &[u8], place: usize) -> Result<Option<(usize, usize)>, Refusal> {
        let found = vector_at(width, file, place)?;
        Ok(found.map(|found| (found.dims, found.next)))
    }

    #[test]
    fn a_file_ends_at_its_length_and_past_it() {
        let file = vector(2, 8);
        for width in WIDTHS {
            assert_eq!(vector_at(width, &[], 0), Ok(None));
            for place in FAR {
                assert_eq!(vector_at(width, &[], place), Ok(None));
                assert_eq!(vector_at(width, &file, place), Ok(None));
            }
        }
        assert_eq!(vector_at(4, &file, 12), Ok(None));
        assert_eq!(vector_at(4, &file, 13), Ok(None));
    }

    #[test]
    fn a_cut_vector_is_refused_by_its_place() {
        for width in WIDTHS {
            for length in 1..4 {
                // whatever the count would have been
                assert_eq!(vector_at(width, &[255; 3][..length], 0), ends_inside(0));
                assert_eq!(vector_at(width, &[0; 3][..length], 0), ends_inside(0));
            }
            assert_eq!(vector_at(width, &vector(1, 0), 0), ends_inside(0));
            assert_eq!(
                vector_at(width, &vector(3, 3 * width - 1), 0),
                ends_inside(0)
            );
            assert_eq!(
                shape(width, &vector(3, 3 * width), 0),
                Ok(Some((3, 4 + 3 * width)))
            );

            // the second vector is cut, the first is still shown
            let first = vector(3, 3 * width);
            let second = first.len();
            for cut in 1..4 + 2 * width {
                let file = [&first[..], &vector(2, 2 * width)[..cut]].concat();
                assert_eq!(shape(width, &file, 0), Ok(Some((3, second))));
                assert_eq!(vector_at(width, &file, second), ends_inside(second));
            }
        }
    }

    #[test]
    fn a_count_is_unsigned_and_tested_before_the_bytes_after_it() {
        let most = MOST_DIMS as u32;
        for width in WIDTHS {
            let whole = |count: u32| vector(count, width * count as usize);
            assert_eq!(shape(width, &vector(0, 0), 0), Ok(Some((0, 4))));
            assert_eq!(
                shape(width, &whole(most), 0),
                Ok(Some((MOST_DIMS, 4 + width * MOST_DIMS)))
            );
            assert_eq!(vector_at(width, &whole(most + 1), 0), refused(9));
            let mut short = whole(most);
            short.pop();
            assert_eq!(vector_at(width, &short, 0), ends_inside(0));

            assert_eq!(vector_at(width, &vector(most, 0), 0), ends_inside(0));
            for count in [most + 1, 0x8000_0000, 0xffff_ffff] {
                assert_eq!(vector_at(width, &vector(count, 0), 0), refused(9));
                assert_eq!(vector_at(width, &vector(count, 1), 0), refused(9));
                // the last byte of the count decides
                assert_eq!(
                    vector_at(width, &count.to_le_bytes()[..3], 0),
                    ends_inside(0)
                );
            }
            // the highest byte first
            let file = [0, 0, 0, 2, 7, 7, 7, 7, 7, 7, 7, 7];
            assert_eq!(vector_at(width, &file, 0), refused(9));
        }
    }

    #[test]
    fn a_place_inside_a_vector_is_taken_as_given() {
        let file: Vec<u8> = [2u32, 1, 5, 0]
            .into_iter()
            .flat_map(u32::to_le_bytes)
            .collect();
        assert_eq!(shape(4, &file, 0), Ok(Some((2, 12))));
        assert_eq!(shape(4, &file, 4), Ok(Some((1, 12))));
        assert_eq!(shape(4, &file, 8), ends_inside(8));
        assert_eq!(shape(4, &file, 12), Ok(Some((0, 16))));
        assert_eq!(shape(4, &file, 1), refused(9));
        assert_eq!(shape(4, &file, 13), ends_inside(13));
        assert_eq!(shape(1, &file, 8), ends_inside(8));
        assert_eq!(shape(1, &file, 4), Ok(Some((1, 9))));
        assert_eq!(shape(1, &file, 9), Ok(Some((0, 13))));
    }

    /// Vectors of one dims are the equal chunks of their file.
    #[test]
    fn a_walk_from_place_0_goes_through_the_chunks_of_a_file() {
        for width in WIDTHS {
            for dims in [0, 1, 2, 5] {
                let file: Vec<u8> = (0..6)
                    .flat_map(|byte| [vec![dims as u8, 0, 0, 0], vec![byte; width * dims]].concat())
                    .collect();
                let mut place = 0;
                for chunk in file.chunks(4 + width * dims) {
                    let found = vector_at(width, &file, place).expect("no refusal");
                    let found = found.expect("a vector");
                    assert_eq!((found.dims, found.elements), (dims, &chunk[4..]));
                    place = found.next;
                }
                assert_eq!(place, file.len());
                assert_eq!(vector_at(width, &file, place), Ok(None));
            }
        }
    }

    #[test]
    fn every_byte_has_its_float() {
        let bytes: Vec<u8> = (0..=255).collect();
        let floats = floats(&bytes);
        assert_eq!(floats.len(), 4 * 256);
        for (number, float) in floats.as_chunks().0.iter().enumerate() {
            assert_eq!(f32::from_le_bytes(*float) as usize, number);
            assert_eq!(f32::from_le_bytes(*float).fract(), 0.0);
        }
        assert_eq!(floats[..8], [0, 0, 0, 0, 0, 0, 128, 63]);
        assert_eq!(floats[4 * 255..], [0, 0, 127, 67]);
    }

    /// Appends a blob that is read to a buffer of sevens: the answer, and the buffer afterwards.
    fn appended(blob: &[u8], length: usize, fill: usize) -> (Result<usize, Refusal>, Vec<u8>) {
        let mut buffer = vec![7; length];
        let answer = rules::read(blob).and_then(|view| append(&view, &mut buffer, fill));
        (answer, buffer)
    }

    #[test]
    fn an_append_changes_exactly_its_bytes() {
        let float = [0, 0, 128, 63];
        let with_type_byte = [0, 0, 128, 63, 1];
        for blob in [&float[..], &with_type_byte] {
            for (length, fill) in [(8, 0), (9, 1), (12, 4), (20, 3), (100, 92)] {
                let (answer, buffer) = appended(blob, length, fill);
                assert_eq!(answer, Ok(fill + 8));
                assert_eq!(buffer[..fill], vec![7; fill]);
                assert_eq!(buffer[fill..fill + 8], [1, 0, 0, 0, 0, 0, 128, 63]);
                assert_eq!(buffer[fill + 8..], vec![7; length - fill - 8]);
            }
        }
        // dims 0, with and without type byte
        for blob in [&[][..], &[1]] {
            let (answer, buffer) = appended(blob, 6, 1);
            assert_eq!((answer, buffer), (Ok(5), vec![7, 0, 0, 0, 0, 7]));
        }
        // a signalling NaN keeps its bits
        let (_, buffer) = appended(&[1, 0, 128, 255], 8, 0);
        assert_eq!(buffer, [1, 0, 0, 0, 1, 0, 128, 255]);
    }

    #[test]
    fn no_room_carries_the_bytes_needed_after_the_fill() {
        let blobs: [(&[u8], usize); 3] = [(&[], 4), (&[0; 4], 8), (&[0; 12], 16)];
        for (blob, bytes) in blobs {
            let refusal = |length: usize, fill: usize| {
                let (answer, buffer) = appended(blob, length, fill);
                assert_eq!(buffer, vec![7; length]);
                answer
            };
            assert_eq!(refusal(0, 0), need(bytes));
            assert_eq!(refusal(bytes - 1, 0), need(bytes));
            for fill in [21 - bytes, 19, 20, 21, 22].into_iter().chain(FAR) {
                assert_eq!(refusal(20, fill), need(bytes));
            }
            assert_eq!(appended(blob, 20, 20 - bytes).0, Ok(20));
        }
    }

    #[test]
    fn the_reader_comes_before_13_and_13_before_15() {
        let bits: &[u8] = &[0xaa, 8, 3];
        let refusals: [(&[u8], u8); 8] = [
            (&vec![0; 524_294], 1),
            (&[5], 2),
            (&[7], 3),
            (&[0; 2], 7),
            (&[0xaa, 7, 3], 6),
            (&[1, 0, 1, 0, 9], 9),
            (bits, 13),
            (&[2], 13),
        ];
        for (blob, number) in refusals {
            // with room, and without
            for (length, fill) in [(100, 0), (0, 0), (0, 9_999_999_999)] {
                let (answer, buffer) = appended(blob, length, fill);
                assert_eq!((answer, buffer), (refused(number), vec![7; length]));
            }
        }
    }
}
