//! Document 01, plainly: the verdict on an image and the run of its last procedure.

mod form;
mod machine;
mod program;
mod reader;
mod walk;

use machine::Machine;
use program::Program;
use reader::Image;

/// A number of document 01's two tables and its place.
pub type Refusal = (u64, u64);

pub const WORK_WORDS: usize = 8_192;
pub const MOST_CELLS: u64 = 4_096;
pub const LONGEST_ARRAY: u64 = 4_096;

#[derive(Clone, Copy, PartialEq, Eq, Debug, Default)]
pub struct Answer {
    pub number: u64,
    pub place: u64,
    pub steps: u64,
    pub entries: u64,
}

/// The verdict: number and place, 0 and 0 when accepted.
pub fn check(image: &[u8]) -> (u64, u64) {
    match accepted(image) {
        Ok(_) => (0, 0),
        Err(refusal) => refusal,
    }
}

fn accepted(bytes: &[u8]) -> Result<Image<'_>, Refusal> {
    let image = form::form(bytes)?;
    walk::walk(&image)?;
    Ok(image)
}

/// A run: the image, and all that it is lent.
pub struct Call<'a> {
    pub image: &'a [u8],
    pub inverse: bool,
    pub lengths: &'a [u64],
    pub store: &'a mut [u64],
    pub work: &'a mut [u64],
    pub budget: u32,
    pub trace: &'a mut [u32],
}

/// Runs the last procedure. The store changes only on 0; work and what the trace does not need become 0.
pub fn run(Call { image, inverse, lengths, store, work, budget, trace }: Call) -> Answer {
    trace.fill(0);
    let works = work.len();
    work.fill(0);
    let image = match ready(image, lengths, store, works) {
        Ok(image) => image,
        Err((number, place)) => return Answer { number, place, ..Answer::default() },
    };
    let program = Program::new(&image);
    let mut machine = Machine::new(&program, lengths, store, budget, trace);
    let outcome = machine.run_last(inverse);
    let (number, place) = outcome.err().unwrap_or((0, 0));
    if number == 0 {
        store.copy_from_slice(machine.store(store.len()));
    }
    Answer { number, place, steps: machine.steps, entries: machine.entries }
}

/// The check's refusals, then 19 to 22 in order.
fn ready<'a>(bytes: &'a [u8], lengths: &[u64], store: &[u64], works: usize) -> Result<Image<'a>, Refusal> {
    let image = accepted(bytes)?;
    if works < WORK_WORDS {
        return Err((19, 0));
    }
    if !lengths_fit(&image, lengths, store.len()) {
        return Err((20, 0));
    }
    if let Some(cell) = first_large_cell(&image, lengths, store) {
        return Err((21, cell));
    }
    if store.len() as u64 + local_cells(&image) > MOST_CELLS {
        return Err((22, 0));
    }
    Ok(image)
}

fn lengths_fit(image: &Image, lengths: &[u64], cells: usize) -> bool {
    let last = image.last_procedure();
    if lengths.len() != last.parameters {
        return false;
    }
    let mut sum: u128 = 0;
    for (i, length) in lengths.iter().enumerate() {
        let fits = if image.variable(last.first + i).is_array() { *length <= LONGEST_ARRAY } else { *length == 1 };
        if !fits {
            return false;
        }
        sum += u128::from(*length);
    }
    sum == cells as u128
}

fn first_large_cell(image: &Image, lengths: &[u64], store: &[u64]) -> Option<u64> {
    let first = image.last_procedure().first;
    let mut cell = 0;
    for (i, length) in lengths.iter().enumerate() {
        let limit = 1u128 << image.variable(first + i).size;
        for _ in 0..*length {
            if u128::from(store[cell]) >= limit {
                return Some(cell as u64);
            }
            cell += 1;
        }
    }
    None
}

fn local_cells(image: &Image) -> u64 {
    let is_parameter = image.parameters();
    (0..image.variables).filter(|v| !is_parameter[*v]).map(|v| image.variable(v).local_cells() as u64).sum()
}

#[cfg(test)]
mod tests {
    use super::*;
    use crate::image::*;

    fn empty_procedure() -> Raw {
        single(&[], &[], Stmt::Empty)
    }

    #[test]
    fn largest_image() {
        assert_eq!(check(&vec![1; 65_536]), (1, 0));
        let mut bytes = vec![0; 65_535];
        bytes[0] = 1;
        assert_eq!(check(&bytes), (2, 0));
    }

    #[test]
    fn most_variables() {
        let with = |count: u16| {
            let locals = vec![public(8); count as usize];
            check(&single(&[], &locals, block(0, count, vec![])).bytes())
        };
        assert_eq!(with(1_024), (0, 0));
        assert_eq!(with(1_025), (2, 0));
    }

    #[test]
    fn most_nodes() {
        let with = |count: usize| check(&single(&[], &[], list(vec![Stmt::Empty; count - 1])).bytes());
        assert_eq!(with(4_096), (0, 0));
        assert_eq!(with(4_097), (2, 0));
    }

    #[test]
    fn most_constants() {
        let with = |count: usize| check(&Raw { constants: vec![0; count], ..empty_procedure() }.bytes());
        assert_eq!(with(512), (0, 0));
        assert_eq!(with(513), (2, 0));
    }

    #[test]
    fn array_of_4096_cells_and_one_more() {
        let image = single(&[public_array(8, 0), public(8)], &[], Stmt::Empty).bytes();
        let with = |length: usize| {
            let mut store = vec![0; length + 1];
            let lengths = [length as u64, 1];
            let work = &mut vec![1; WORK_WORDS];
            run(Call { image: &image, inverse: false, lengths: &lengths, store: &mut store, work, budget: 9, trace: &mut [] }).number
        };
        assert_eq!([with(4_095), with(4_096), with(4_097)], [0, 22, 20]);
    }

    #[test]
    fn any_bytes_are_answered() {
        for length in 0..200usize {
            for pattern in [0u8, 1, 255] {
                let mut bytes = vec![pattern; length];
                if length > 1 {
                    bytes[..2].copy_from_slice(&[1, 0]);
                }
                assert_ne!(check(&bytes).0, 0);
            }
        }
    }
}
