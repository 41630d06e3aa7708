//! The digest: SHA-256 over the bytes of the state (FORMAT.md, section 4).

use crate::exchange::{Accounts, Offers};
use crate::fault::Fault;
use crate::reading::{ASSETS, MOST_BYTES};
use crate::sha256::sha256;

/// The digest of a state.
pub fn digest_of_state(
    height: u32,
    remainders: &[u64; ASSETS],
    accounts: &Accounts,
    offers: &Offers,
) -> [u8; 32] {
    sha256(&state_bytes(height, remainders, accounts, offers))
}

/// The digest of any bytes up to 40,000.
pub fn digest_of_bytes(bytes: &[u8]) -> Result<[u8; 32], Fault> {
    if bytes.len() > MOST_BYTES {
        return Err(Fault::plain(1));
    }
    Ok(sha256(bytes))
}

/// The bytes of a state.
pub fn state_bytes(height: u32, remainders: &[u64; ASSETS], accounts: &Accounts, offers: &Offers) -> Vec<u8> {
    let mut bytes = Vec::with_capacity(77 + 72 * accounts.len() + 22 * offers.len());
    bytes.push(b'S');
    bytes.extend_from_slice(&height.to_be_bytes());
    for remainder in remainders {
        bytes.extend_from_slice(&remainder.to_be_bytes());
    }
    add_accounts(&mut bytes, accounts);
    add_offers(&mut bytes, offers);
    bytes
}

fn add_accounts(bytes: &mut Vec<u8>, accounts: &Accounts) {
    bytes.extend_from_slice(&(accounts.len() as u32).to_be_bytes());
    for (number, account) in accounts {
        bytes.extend_from_slice(&number.to_be_bytes());
        bytes.extend_from_slice(&account.floor.to_be_bytes());
        for balance in account.balances {
            bytes.extend_from_slice(&balance.to_be_bytes());
        }
    }
}

fn add_offers(bytes: &mut Vec<u8>, offers: &Offers) {
    bytes.extend_from_slice(&(offers.len() as u32).to_be_bytes());
    for (key, amount) in offers {
        bytes.extend_from_slice(&[key.sold, key.bought]);
        bytes.extend_from_slice(&key.limit.to_be_bytes());
        bytes.extend_from_slice(&key.account.to_be_bytes());
        bytes.extend_from_slice(&key.sequence.to_be_bytes());
        bytes.extend_from_slice(&amount.to_be_bytes());
    }
}
