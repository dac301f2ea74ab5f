//! Fresh tables asked of the archive: in buffers that are long enough or too short, with good names and bad ones.
#![forbid(unsafe_code)]

use crate::counts::Counts;
use crate::hub::names;
use crate::layout::TABLE;
use crate::lent::Host;
use crate::random::Random;
use crate::server::WORKLOADS;

/// Every name in buffers of all lengths, then every byte in a name.
pub fn compare(seed: u64, counts: &mut Counts) -> Result<(), String> {
    let mut random = Random::new(seed);
    let good = names::GOOD.iter().map(|name| name.to_vec());
    for name in good.chain(names::bad()) {
        for table in [0, 1, TABLE - 1, TABLE, TABLE + 1, 8_192] {
            for workloads in [0, 1, WORKLOADS - 1, WORKLOADS, WORKLOADS + 1] {
                make([table, workloads], &name, &mut random, counts)?;
            }
        }
    }
    for byte in 0..=255 {
        for name in [vec![byte], vec![b'a', byte], [&b"abcdefghijklmn"[..], &[byte]].concat()] {
            make([TABLE, WORKLOADS], &name, &mut random, counts)?;
        }
    }
    Ok(())
}

/// One fresh table in buffers of these lengths.
fn make(lengths: [usize; 2], name: &[u8], random: &mut Random, counts: &mut Counts) -> Result<(), String> {
    let made = Host::with_lengths(lengths[0], lengths[1], 0).fresh(name, random).map_err(|text| {
        let [table, workloads] = lengths;
        let shown = name[..name.len().min(40)].escape_ascii();
        format!(
            "fresh, table of {table}, workloads of {workloads} bytes, name of {} bytes: {shown}\n{text}",
            name.len()
        )
    })?;
    counts.fresh.add(made);
    Ok(())
}
