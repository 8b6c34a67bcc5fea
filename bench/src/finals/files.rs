//! The files of finals.
use crate::independent::{self, finals::Final};
use crate::items::DECIDING_BYTES;
use crate::records::{records_of, PLAN_HEAD};

/// The three files of a final.
#[derive(Clone)]
pub struct Files {
    pub network: Vec<u8>,
    pub plans: [Vec<u8>; 2],
}

impl Files {
    /// An input cut into files at two offsets.
    pub fn cut(input: &[u8], ends: [usize; 2]) -> Files {
        let (low, high) = (ends[0].min(ends[1]), ends[0].max(ends[1]));
        Files { network: input[..low].to_vec(), plans: [input[low..high].to_vec(), input[high..].to_vec()] }
    }

    /// All three directly behind one another.
    pub fn input(&self) -> Vec<u8> {
        [&self.network[..], &self.plans[0], &self.plans[1]].concat()
    }

    pub fn plans(&self) -> [&[u8]; 2] {
        [&self.plans[0], &self.plans[1]]
    }

    pub fn is_accepted(&self) -> bool {
        matches!(independent::finals::lent_apart(&self.network, self.plans()), Final::Held(_))
    }

    /// The files that one input is read as, if it is accepted: they need not end where these files do.
    pub fn as_read(&self) -> Files {
        let input = self.input();
        let heads = records_of(&input, PLAN_HEAD);
        Files::cut(&input, [heads[0].start, heads[1].start])
    }
}

/// A network part, and the pairs of plan parts that come behind it one at a time.
pub struct Item {
    pub network: Vec<u8>,
    pub pairs: Vec<[Vec<u8>; 2]>,
}

impl Item {
    /// All parts within the bytes that decide.
    pub fn new(mut network: Vec<u8>, mut pairs: Vec<[Vec<u8>; 2]>) -> Item {
        network.truncate(DECIDING_BYTES);
        let room = DECIDING_BYTES - network.len();
        for [first, second] in &mut pairs {
            first.truncate(room);
            second.truncate(room - first.len());
        }
        Item { network, pairs }
    }

    pub fn of(files: Files) -> Item {
        Item::new(files.network, vec![files.plans])
    }

    /// With all bytes of the files, however many there are.
    pub fn whole(files: Files) -> Item {
        Item { network: files.network, pairs: vec![files.plans] }
    }

    pub fn finals(&self) -> impl Iterator<Item = Files> + '_ {
        self.pairs.iter().map(|plans| Files { network: self.network.clone(), plans: plans.clone() })
    }
}
