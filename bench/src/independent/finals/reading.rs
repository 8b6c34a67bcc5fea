//! Rules 1 to 18 and 20 over three files.
use super::super::accepted::Accepted;
use super::super::network::Network;
use super::super::read_alone;
use super::super::reader::{Reader, Refusal};
use super::super::submitted::Submitted;

type Read<'a> = Result<(Accepted, [Submitted<'a>; 2]), Refusal>;

/// The files in one input: rule 13 is asked once.
pub fn one_input(input: &[u8]) -> Read<'_> {
    let mut reader = Reader::new(input);
    let network = Network::read(&mut reader)?;
    let plans = [Submitted::read(&mut reader, &network)?, Submitted::read(&mut reader, &network)?];
    reader.finish()?;
    Ok((Accepted::from(network)?, plans))
}

/// The files lent apart: rule 13 is asked of each.
pub fn apart<'a>(network: &[u8], [first, second]: [&'a [u8]; 2]) -> Read<'a> {
    let read = read_alone(network)?;
    let first_at = network.len();
    let plans = [plan(first, first_at, &read)?, plan(second, first_at + first.len(), &read)?];
    Ok((Accepted::from(read)?, plans))
}

/// A plan file whose first byte has that offset among all that is lent.
fn plan<'a>(file: &'a [u8], at: usize, network: &Network) -> Result<Submitted<'a>, Refusal> {
    let mut reader = Reader::counting_on(file, at);
    let submitted = Submitted::read(&mut reader, network)?;
    reader.finish()?;
    Ok(submitted)
}
