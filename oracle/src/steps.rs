//! The stepping check, and where branches land, written from documents 01 and 02: the source has neither.

/// The number of all steps, or the place at which the bytes are unclean.
pub type Stepped = Result<usize, usize>;

const END: u8 = 0;

/// Steps to the last byte: clean if the last step is an End.
pub fn step(bytes: &[u8]) -> Stepped {
    let (mut rest, mut steps, mut last) = (bytes, 0, None);
    while let [opcode, ..] = rest {
        let place = bytes.len() - rest.len();
        rest = behind(rest).ok_or(place)?;
        steps += 1;
        last = Some(*opcode);
    }
    match last {
        Some(END) => Ok(steps),
        _ => Err(bytes.len()),
    }
}

/// What stands behind the first step; none if there is no opcode or its step passes the end.
fn behind(bytes: &[u8]) -> Option<&[u8]> {
    match bytes {
        [0..=0x7F, rest @ ..] => Some(rest),
        [_, low, high, rest @ ..] => rest.get(usize::from(u16::from_le_bytes([*low, *high]))..),
        _ => None,
    }
}

/// How many of the steps are branches, if each lands where a step begins; or the place of the first that does not.
pub fn branches(bytes: &[u8]) -> Result<usize, usize> {
    let starts = starts(bytes);
    let mut count = 0;
    for at in &starts {
        if let 0x99 | 0x9D = bytes[*at] {
            let landing = landing(bytes, *at).ok_or(*at)?;
            starts.binary_search(&landing).map_err(|_| *at)?;
            count += 1;
        }
    }
    Ok(count)
}

/// Where the branch at a place lands: as far behind its operand as that says. None if the operand is not there, or before byte 0.
fn landing(bytes: &[u8], at: usize) -> Option<usize> {
    let [_, 2, 0, low, high, ..] = bytes[at..] else {
        return None;
    };
    (at + 5).checked_add_signed(i16::from_le_bytes([low, high]).into())
}

/// Where each step begins, as far as steps do not pass the end.
fn starts(bytes: &[u8]) -> Vec<usize> {
    let mut rest = bytes;
    let mut starts = vec![];
    while let Some(next) = behind(rest) {
        starts.push(bytes.len() - rest.len());
        rest = next;
    }
    starts
}

#[cfg(test)]
mod tests {
    use super::*;

    /// A branch of this distance, a Push of one byte and an End: steps begin at 0, 5 and 9.
    fn landing_of(opcode: u8, distance: i16) -> Result<usize, usize> {
        let [low, high] = distance.to_le_bytes();
        let bytes = [opcode, 2, 0, low, high, 0x96, 1, 0, 3, 0];
        assert_eq!(step(&bytes), Ok(3));
        branches(&bytes)
    }

    #[test]
    fn a_branch_lands_where_a_step_begins() {
        for opcode in [0x99, 0x9D] {
            // To itself; distance 0; to the End.
            for distance in [-5, 0, 4] {
                assert_eq!(landing_of(opcode, distance), Ok(1), "{distance}");
            }
            // Before byte 0; into its own operand and into a payload; behind the last End and further.
            for distance in [i16::MIN, -6, -4, -1, 1, 3, 5, 6, i16::MAX] {
                assert_eq!(landing_of(opcode, distance), Err(0), "{distance}");
            }
        }
        // No other opcode is a branch.
        assert_eq!(landing_of(0x9E, 1), Ok(0));
    }

    #[test]
    fn every_branch_counts_and_the_first_that_does_not_land_is_told() {
        // Two that land on each other, in a body too.
        assert_eq!(
            branches(&[0x99, 2, 0, 0, 0, 0x9D, 2, 0, 0xF6, 0xFF, 0]),
            Ok(2)
        );
        assert_eq!(
            branches(&[0x94, 2, 0, 5, 0, 0x99, 2, 0, 0xF6, 0xFF, 0]),
            Ok(1)
        );
        // The second and the third do not land.
        let bytes = [0x99, 2, 0, 0, 0, 0x9D, 2, 0, 1, 0, 0x99, 2, 0, 9, 0, 0];
        assert_eq!(branches(&bytes), Err(5));
        // No operand, half of one, and one byte too many.
        assert_eq!(branches(&[0x99, 0, 0, 0]), Err(0));
        assert_eq!(branches(&[0x99, 1, 0, 0, 0]), Err(0));
        assert_eq!(branches(&[0x17, 0x9D, 3, 0, 0, 0, 0, 0]), Err(1));
        // None, and none in a payload.
        assert_eq!(branches(&[0]), Ok(0));
        assert_eq!(branches(&[0x96, 5, 0, 0x99, 2, 0, 7, 7, 0]), Ok(0));
    }

    #[test]
    fn clean_exactly_when_the_last_step_is_an_end() {
        let answers: [(&[u8], Stepped); 12] = [
            (&[], Err(0)),
            (&[0], Ok(1)),
            (&[0, 0], Ok(2)),
            (&[0x17], Err(1)),
            (&[0, 0x17], Err(2)),
            (&[0, 0x80], Err(1)),
            (&[0x17, 0x9E, 0], Err(1)),
            (&[0x96, 5, 0, 1], Err(0)),
            (&[0x80, 0, 0, 0], Ok(2)),
            (&[0x80, 1, 0, 0], Err(4)),
            (&[0x9E, 0, 0, 0, 0x17, 0], Ok(4)),
            (&[0x99, 2, 0, 5, 0, 0x94, 2, 0, 1, 0, 6, 0], Ok(4)),
        ];
        for (bytes, answer) in answers {
            assert_eq!(step(bytes), answer, "{bytes:02X?}");
        }
    }

    #[test]
    fn the_high_byte_of_a_length_counts() {
        let declared = |n: u16, payload: usize| {
            let [low, high] = n.to_le_bytes();
            step(&[&[0x7F, 0x80, low, high], &vec![0; payload][..]].concat())
        };
        for n in [256, 255 + 256, u16::MAX] {
            let all = usize::from(n);
            assert_eq!(declared(n, all - 1), Err(1));
            assert_eq!(declared(n, all), Err(4 + all));
            assert_eq!(declared(n, all + 1), Ok(3));
        }
    }
}
