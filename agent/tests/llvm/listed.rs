//! Compares the listing that the proved library writes of a section with the one that follows from what llvm-readobj
//! printed of the same bytes, and the section of that listing with the bytes.
//!
//! Every byte of a section that the check leaves free is in its listing, and is compared here. Only the constant
//! that is printed after the index of a pool's entry is not.

use crate::compare::{fields, same};
use crate::readobj::{Printed, Record};

/// The first difference, if there is one.
pub fn compare(bytes: &[u8], printed: &Printed) -> Result<(), String> {
    let listing = treskibben::listing_of(bytes).map_err(|refusal| refusal.to_string())?;
    same("the listing", &listing, &listing_of(printed))?;
    let section = treskibben::section_of(&listing).map_err(|refusal| refusal.to_string())?;
    same("the section of the listing", &section[..], bytes)
}

/// The listing of what is printed.
fn listing_of(printed: &Printed) -> Vec<u8> {
    let mut listing = Vec::new();
    for function in &printed.functions {
        listing.push(1);
        for number in [function.address, function.stack_size, function.record_count] {
            listing.extend(number.to_le_bytes());
        }
    }
    for constant in &printed.constants {
        listing.push(2);
        listing.extend(constant.to_le_bytes());
    }
    for record in &printed.records {
        items(record, &mut listing);
    }
    listing.push(6);
    listing
}

/// A record's items.
fn items(record: &Record, listing: &mut Vec<u8>) {
    listing.push(3);
    listing.extend(record.id.to_le_bytes());
    listing.extend(record.offset.to_le_bytes());
    for location in &record.locations {
        let (kind, register, offset, _) = fields(&location.value);
        listing.extend([4, kind]);
        listing.extend(location.size.to_le_bytes());
        listing.extend(register.to_le_bytes());
        listing.extend(offset.to_le_bytes());
    }
    for live_out in &record.live_outs {
        listing.push(5);
        listing.extend(live_out.register.to_le_bytes());
        listing.push(live_out.size);
    }
}
