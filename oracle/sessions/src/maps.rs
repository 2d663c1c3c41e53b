//! The bytes that the port answers for `map`, read as what the original holds.

use crate::record::UNWRITTEN;
use enonkasse_sys as library;
use judge::hex::Reader;
use judge::refusals::FULL;
use plans::mapped::{BySection, Column, Mapped, Record, Widths};
use plans::question::{Answer, Given};

/// Enough for every plan: 4,096 records, as many columns, 512 expressions.
const ROOM: usize = 1 << 17;

/// What stands in place of a size that was not written.
const NO_SIZE: usize = usize::MAX;

/// What exp2pol says of an expression that has no record.
const NO_RECORD: usize = 0xffff;

/// The port's answer. Where it is a plan, it is asked for it once more with as much room as it needs, and with a
/// byte less.
pub fn answer(frames: &[u8], plan: &[u8], expressions: usize) -> Result<Answer, String> {
    let (number, size, out) = call(frames, plan, ROOM)?;
    if number != 0 {
        return Ok(Answer::Refused(number));
    }
    let (bytes, behind) = out.split_at(size);
    if behind.iter().any(|&byte| byte != UNWRITTEN) {
        return Err("what follows the answer has changed\n".to_string());
    }
    let tight = call(frames, plan, size)?;
    if tight != (0, size, bytes.to_vec()) {
        return Err("with as much room as it needs the answer is another\n".to_string());
    }
    let (without_a_byte, _, _) = call(frames, plan, size - 1)?;
    if without_a_byte != FULL {
        return Err(format!("with a byte less the answer is {}\n", without_a_byte));
    }
    match mapped(bytes, expressions) {
        Ok(mapped) => Ok(Answer::Given(Given::Mapped(Box::new(mapped)))),
        Err(text) => Err(format!("{}\n", text)),
    }
}

/// The number of the answer where there is room enough.
pub fn number(frames: &[u8], plan: &[u8]) -> Result<u8, String> {
    call(frames, plan, ROOM).map(|(number, _, _)| number)
}

fn call(frames: &[u8], plan: &[u8], room: usize) -> Result<(u8, usize, Vec<u8>), String> {
    let (mut out, mut size) = (vec![UNWRITTEN; room], [NO_SIZE]);
    let number = library::map(frames, plan, &mut out, &mut size);
    let changed = size != [NO_SIZE] || out.iter().any(|&byte| byte != UNWRITTEN);
    if number != 0 && changed {
        return Err(format!("refused with {}, and what was lent has changed\n", number));
    }
    if number == 0 && size[0] > room {
        return Err(format!("{} bytes in room for {}\n", size[0], room));
    }
    Ok((number, size[0], out))
}

fn mapped(bytes: &[u8], expressions: usize) -> Result<Mapped, String> {
    let mut reader = Reader::new(bytes);
    let offsets = by_section(|| wide(&mut reader))?;
    let total = wide(&mut reader)?;
    let [record_count, cms, columns, q_dim] = numbers(&mut reader)?;
    let n1 = by_section(|| short(&mut reader))?;
    let n = by_section(|| short(&mut reader))?;
    let n3 = by_section(|| short(&mut reader))?;
    let records = many(record_count, || {
        let [section, dimension, position] = numbers(&mut reader)?;
        Ok(Record { section, dimension, position })
    })?;
    let cm_n = many(cms, || short(&mut reader))?;
    let cm_2ns = many(cms, || short(&mut reader))?;
    let cm_dims = many(cms, || short(&mut reader))?;
    let temporary_columns = many(columns, || {
        let [expression, record] = numbers(&mut reader)?;
        Ok(Column { expression, record })
    })?;
    let of_expressions = many(expressions, || short(&mut reader))?;
    let of_expressions = of_expressions.into_iter().enumerate();
    let exp2pol = of_expressions
        .filter(|&(_, record)| record != NO_RECORD)
        .map(|(expression, record)| Column { expression, record })
        .collect();
    reader.end()?;
    let widths = Widths { n1, n, n3 };
    Ok(Mapped {
        records,
        cm_n,
        cm_2ns,
        temporary_columns,
        exp2pol,
        cm_dims,
        q_dim,
        widths,
        offsets,
        total,
    })
}

fn short(reader: &mut Reader<'_>) -> Result<usize, String> {
    reader.u16().map(usize::from)
}

fn wide(reader: &mut Reader<'_>) -> Result<usize, String> {
    reader.u64().map(|number| number as usize)
}

fn numbers<const N: usize>(reader: &mut Reader<'_>) -> Result<[usize; N], String> {
    let mut numbers = [0; N];
    for place in &mut numbers {
        *place = short(reader)?;
    }
    Ok(numbers)
}

fn by_section(mut one: impl FnMut() -> Result<usize, String>) -> Result<BySection, String> {
    let mut numbers = BySection::default();
    for place in &mut numbers {
        *place = one()?;
    }
    Ok(numbers)
}

fn many<T>(count: usize, one: impl FnMut() -> Result<T, String>) -> Result<Vec<T>, String> {
    std::iter::repeat_with(one).take(count).collect()
}

#[cfg(test)]
mod tests {
    use super::*;
    use crate::record::framed;
    use judge::case::cm;
    use judge::refusals::{MALFORMED, NOT_THERE};
    use plans::written::{pool, small, with_columns};

    fn lent() -> (Vec<u8>, Vec<u8>) {
        (framed(pool(&[cm(0)]).frames()), with_columns(1, small()).bytes())
    }

    #[test]
    fn room_is_needed_for_every_byte() {
        let (frames, plan) = lent();
        let (number, size, _) = call(&frames, &plan, ROOM).unwrap();
        assert_eq!(number, 0);
        for room in 0..size {
            assert_eq!(call(&frames, &plan, room).unwrap().0, FULL, "{}", room);
        }
        assert_eq!(call(&frames, &plan, size).unwrap().0, 0);
    }

    #[test]
    fn what_is_cut_off_is_malformed() {
        let (frames, plan) = lent();
        for size in 0..plan.len() {
            assert_eq!(super::number(&frames, &plan[..size]), Ok(MALFORMED));
        }
        for size in 0..frames.len() {
            let expected = if size == 0 || size == 8 { NOT_THERE } else { MALFORMED };
            assert_eq!(super::number(&frames[..size], &plan), Ok(expected), "{}", size);
        }
        assert_eq!(super::number(&[0xff; 40], &plan), Ok(MALFORMED));
    }
}
