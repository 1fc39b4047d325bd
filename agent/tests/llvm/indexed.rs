//! Compares the index of a section with what llvm-readobj printed of the same bytes, and what is found through it
//! with what the question by address finds.

use crate::compare::{owners, same};
use crate::readobj::Printed;
use treskibben::Index;

/// The entries that the printed text yields: address and number of each record, ordered by address and then by number.
pub fn entries(printed: &Printed) -> Vec<u64> {
    let offsets = printed
        .records
        .iter()
        .map(|record| u64::from(record.offset));
    let addresses = owners(printed)
        .zip(offsets)
        .map(|((_, start), offset)| start + offset);
    let mut pairs: Vec<[u64; 2]> = addresses
        .zip(0..)
        .map(|(address, number)| [address, number])
        .collect();
    pairs.sort();
    pairs.concat()
}

/// The first difference, if there is one.
pub fn compare(bytes: &[u8], printed: &Printed) -> Result<(), String> {
    let index = Index::of(bytes).map_err(|refusal| refusal.to_string())?;
    let entries = entries(printed);
    same("entries", index.entries(), entries.as_slice())?;
    let own = entries.iter().step_by(2);
    let addresses: Vec<u64> = own
        .flat_map(|own| [own - 1, *own, own + 1])
        .chain([0, u64::MAX])
        .collect();
    let answers = index
        .find_all(&addresses)
        .map_err(|refusal| refusal.to_string())?;
    for (address, answer) in addresses.iter().zip(answers) {
        let plain = treskibben::find(bytes, *address);
        same(&format!("found at {address:#x}"), answer, plain.ok())?;
        same(
            &format!("by itself at {address:#x}"),
            index.find(*address),
            plain,
        )?;
    }
    Ok(())
}

/// Each entry of the index changed, and each pair of records exchanged: no such list is the index.
pub fn refuses_others(bytes: &[u8], printed: &Printed) -> Result<(), String> {
    let entries = entries(printed);
    let refused = |list: Vec<u64>| {
        let found = Index::from_entries(bytes, list).find(0);
        same(
            "a list that is no index",
            found.err().map(|refusal| refusal.number()),
            Some(29),
        )
    };
    for nth in 0..entries.len() {
        let mut changed = entries.clone();
        changed[nth] ^= 1;
        refused(changed)?;
        refused(entries[..nth].to_vec())?;
        if nth >= 2 {
            let mut exchanged = entries.clone();
            exchanged.swap(nth - 2, nth);
            exchanged.swap((nth - 2) ^ 1, nth ^ 1);
            refused(exchanged)?;
        }
    }
    refused([&entries[..], &[0, 0]].concat())
}
