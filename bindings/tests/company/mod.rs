//! Companies' files, and the LO body that they come under.

use crate::common::{record, L};
use desk::Currency;

/// Due dates are that of the LO body.
const DUE: &str = "30062025";

/// That of case L's first batch, with its entity in this currency.
pub fn lo(currency: Currency) -> Vec<u8> {
    let mut lo = record(L, 1).to_vec();
    lo[87..].fill(b'0');
    if currency == Currency::Dollars {
        lo[79..83].copy_from_slice(b"0901");
    }
    lo
}

/// With a detail for each amount, to 402 and 403 in turn, and closed by their number and sum. Fields as source 004's table has them.
pub fn company_file(currency: Currency, amounts: &[u64]) -> Vec<u8> {
    let code = match currency {
        Currency::Pesos => 80,
        Currency::Dollars => 82,
    };
    let payers = [
        ("40200013", "02051342910056", "PEREZ JUAN", "RECIBO 0001"),
        ("40300028", "00000000000000", "GOMEZ ANA", "RECIBO 0002"),
    ];
    let details = amounts.iter().zip(payers.into_iter().cycle());
    let details = details.map(|(amount, (block_1, block_2, client, reference))| {
        let to = format!("{DUE}{block_1}000{block_2}{client:<22}");
        format!(
            "D{:24}{to}{:8}{reference:<15}{amount:010}{code}{:135}",
            "", "", ""
        )
    });
    let (count, sum) = (amounts.len(), amounts.iter().sum::<u64>());
    let closing = format!("T{count:010}{count:07}{:07}{:78}{sum:010}{:137}", 0, "", "");
    details.chain([closing]).collect::<String>().into()
}
