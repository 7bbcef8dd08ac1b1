//! A call of the reader or of the writer, with all that it is lent.

use super::report;
use crate::check::Run;
use crate::difference::{Difference, Input, same};
use crate::lent::Lent;
use crate::mizdrek::{self, Refusal};
use crate::oracle::SIDES;
use crate::random::Random;
use crate::rules::records::{self as rules, Block, List};
use std::hint::black_box;

type Answer = Result<usize, Refusal>;
type Read = fn(&[u8], &mut [u32], &mut [usize], &mut [i32]) -> Answer;
type Write = fn(usize, &[u32], &[usize], &[i32], &mut [u8]) -> Answer;

/// The two calls, as they are or as the rules have them.
struct Calls {
    read: Read,
    write: Write,
}

const OURS: Calls = Calls { read: mizdrek::read_records, write: mizdrek::write_records };
const RULES: Calls = Calls { read: rules::read, write: rules::write };

#[derive(Clone)]
pub struct Case {
    /// What the writer is told; the reader is told no count.
    pub count: Option<usize>,
    pub bytes: Vec<u8>,
    pub list: List,
    /// How much is lent of bytes, numbers, sides and levels. They may go on behind it.
    pub lent: [usize; 4],
}

impl Case {
    /// Reads a file into buffers of these lengths.
    pub fn read(random: &mut Random, file: &[u8], [numbers, sides, levels]: [usize; 3]) -> Case {
        let case = Case { count: None, bytes: file.to_vec(), list: List::default(), lent: [0; 4] };
        case.lend(random, [file.len(), numbers, sides, levels])
    }

    /// Writes blocks, be they good or bad, from buffers that just hold them into just enough bytes.
    pub fn write(random: &mut Random, blocks: &[Block]) -> Case {
        let list = List::of(blocks);
        let [numbers, sides, levels] = list.lengths();
        let case = Case { count: Some(blocks.len()), bytes: Vec::new(), list, lent: [0; 4] };
        case.lend(random, [rules::file(blocks).len(), numbers, sides, levels])
    }

    /// Lends so much of each buffer. A shorter one is filled up with anything.
    pub fn lend(mut self, random: &mut Random, lent: [usize; 4]) -> Case {
        let [bytes, numbers, sides, levels] = lent;
        fill_up(&mut self.bytes, bytes, || random.next() as u8);
        fill_up(&mut self.list.numbers, numbers, || random.next() as u32);
        fill_up(&mut self.list.sides, sides, || any_side(random));
        fill_up(&mut self.list.levels, levels, || random.next() as i32);
        self.lent = lent;
        self
    }

    /// The name of the function that is called.
    fn name(&self) -> &'static str {
        if self.count.is_some() { "mizdrek_write_records" } else { "mizdrek_read_records" }
    }

    /// Makes the call and compares its answer and each buffer, also what isn't lent of it. Bytes that are
    /// read are reported too.
    pub fn compare(&self, run: &mut Run) -> Result<Answer, Difference> {
        run.case();
        if self.count.is_none() {
            _ = report::compare(&mut run.random, &self.bytes, self.lent[0])?;
        }
        self.compare_call().map_err(|d| {
            let inputs: [Input; 6] = [
                ("count", &self.count),
                ("lent of bytes, numbers, sides, levels", &self.lent),
                ("bytes before", &self.bytes),
                ("numbers before", &self.list.numbers),
                ("sides before", &self.list.sides),
                ("levels before", &self.list.levels),
            ];
            d.of(self.name(), &inputs)
        })
    }

    fn compare_call(&self) -> Result<Answer, Difference> {
        let Case { bytes, list: List { numbers, sides, levels }, .. } = &mut self.clone();
        let expected = self.make(RULES, bytes, numbers, sides, levels);
        let mut our_bytes = Lent::new(&self.bytes);
        let mut our_numbers = Lent::new(&self.list.numbers);
        let mut our_sides = Lent::new(&self.list.sides);
        let mut our_levels = Lent::new(&self.list.levels);
        let answer =
            self.make(OURS, our_bytes.write(), our_numbers.write(), our_sides.write(), our_levels.write());
        same("the answer", expected, answer)?;
        our_bytes.holds("bytes", bytes)?;
        our_numbers.holds("numbers", numbers)?;
        our_sides.holds("sides", sides)?;
        our_levels.holds("levels", levels)?;
        Ok(answer)
    }

    /// Makes the call on the parts of these buffers that are lent.
    fn make(
        &self,
        calls: Calls,
        bytes: &mut [u8],
        numbers: &mut [u32],
        sides: &mut [usize],
        levels: &mut [i32],
    ) -> Answer {
        let (bytes, numbers) = (&mut bytes[..self.lent[0]], &mut numbers[..self.lent[1]]);
        let (sides, levels) = (&mut sides[..self.lent[2]], &mut levels[..self.lent[3]]);
        let answer = match self.count {
            None => (calls.read)(bytes, numbers, sides, levels),
            Some(count) => (calls.write)(count, numbers, sides, levels, bytes),
        };
        // The compiler may take what is lent to be read to be as before: the comparison is to look again.
        black_box((bytes, numbers, sides, levels));
        answer
    }
}

/// Makes a list at least so long.
fn fill_up<T>(list: &mut Vec<T>, length: usize, any: impl FnMut() -> T) {
    list.resize_with(list.len().max(length), any);
}

/// A side that there is or, as often, isn't.
fn any_side(random: &mut Random) -> usize {
    if random.once_in(2) { random.pick(&SIDES) } else { random.next() as usize }
}
