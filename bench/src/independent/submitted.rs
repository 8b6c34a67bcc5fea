//! A submitted plan file, with rules 10 to 12: its step records as they lie in the lent bytes.
use super::network::Network;
use super::reader::{word, Reader, Record, Refusal, PLAN_HEAD, STEP};

pub struct Submitted<'a> {
    pub steps: &'a [u8],
}

impl<'a> Submitted<'a> {
    pub fn read(reader: &mut Reader<'a>, network: &Network) -> Result<Submitted<'a>, Refusal> {
        let head = reader.record(PLAN_HEAD)?;
        let [steps] = head.words;
        head.demand(10, steps <= 255)?;
        let behind = reader.rest();
        for _ in 0..steps {
            let step: Record<2> = reader.record(STEP)?;
            let [link, state] = step.words;
            step.demand(11, (link as usize) < network.links)?;
            step.demand(12, state <= 1)?;
        }
        let submitted = Submitted { steps: &behind[..8 * steps as usize] };
        reader.end()?;
        Ok(submitted)
    }

    pub fn is_empty(&self) -> bool {
        self.steps.is_empty()
    }

    /// Link and state wanted of each step.
    pub fn list(&self) -> impl Iterator<Item = (usize, u16)> + 'a {
        self.steps.chunks_exact(8).map(|step| (word(step, 4) as usize, word(step, 6)))
    }
}
