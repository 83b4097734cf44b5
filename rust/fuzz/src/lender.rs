//! A call made in memory of its own: tape, output, work and answer each lie between pages without access, or each in a block of the heap.
use crate::system::fault;
use crate::system::pages::{Edge, Pages};
use compare::judge::Made;
use normalize::Words;
use reading::commands::hex;

/// One in so many calls has its buffers' first bytes at a page without access, the others their ends.
const AT_FRONT: usize = 8;

/// What a call is handed, and what it leaves there.
pub struct Buffers<'a> {
    pub tape: &'a [u8],
    pub limit: u16,
    pub output: &'a mut [u8],
    pub work: &'a mut [u8],
    pub answer: &'a mut Words,
}

pub enum Lender {
    Pages(Box<Guarded>),
    /// Under valgrind, which watches both ends of a block of the heap.
    Heap,
}

impl Lender {
    pub fn of_pages() -> Lender {
        let [tape, output, work, answer] = [1 << 12, 1 << 13, 1 << 16, size_of::<Words>()].map(Pages::new);
        Lender::Pages(Box::new(Guarded { tape, output, work, answer, made: 0 }))
    }

    /// Makes the call with copies of these buffers, and copies back what it leaves.
    pub fn make(&mut self, made: Made, buffers: Buffers) {
        match self {
            Lender::Pages(guarded) => guarded.make(made, buffers),
            Lender::Heap => in_heap(made, buffers),
        }
    }
}

pub struct Guarded {
    tape: Pages,
    output: Pages,
    work: Pages,
    answer: Pages,
    made: usize,
}

impl Guarded {
    fn make(&mut self, made: Made, mut buffers: Buffers) {
        self.lend(&buffers);
        let Guarded { tape, output, work, answer, .. } = self;
        let teller = || told(&buffers);
        fault::during(&teller, || made(tape.bytes(), buffers.limit, output.inside(), work.inside(), answer.words()));
        self.take_back(&mut buffers);
    }

    fn lend(&mut self, buffers: &Buffers) {
        self.made += 1;
        let edge = if self.made.is_multiple_of(AT_FRONT) { Edge::Front } else { Edge::End };
        self.tape.lend(buffers.tape, edge);
        self.tape.seal();
        self.output.lend(buffers.output, edge);
        self.work.lend(buffers.work, edge);
        self.answer.lend(buffers.answer.map(u64::to_ne_bytes).as_flattened(), edge);
    }

    fn take_back(&mut self, buffers: &mut Buffers) {
        self.tape.unseal();
        buffers.output.copy_from_slice(self.output.inside());
        buffers.work.copy_from_slice(self.work.inside());
        *buffers.answer = *self.answer.words();
        let is_whole = [&mut self.tape, &mut self.output, &mut self.work, &mut self.answer].into_iter().all(Pages::rest_is_whole);
        assert!(is_whole, "bytes beside a buffer were changed");
    }
}

fn told(buffers: &Buffers) -> String {
    let Buffers { tape, limit, output, work, .. } = buffers;
    format!("a call with\n  {} l{limit} o{} w{}", hex(tape), output.len(), work.len())
}

fn in_heap(made: Made, buffers: Buffers) {
    let tape: Box<[u8]> = buffers.tape.into();
    let [mut output, mut work]: [Box<[u8]>; 2] = [(&*buffers.output).into(), (&*buffers.work).into()];
    let mut answer = Box::new(*buffers.answer);
    made(&tape, buffers.limit, &mut output, &mut work, &mut answer);
    buffers.output.copy_from_slice(&output);
    buffers.work.copy_from_slice(&work);
    *buffers.answer = *answer;
}
