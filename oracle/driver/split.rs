//! Document 02's request [1], of which the Rust has nothing: a plain function that stands for it. The
//! oracle answers with it, and the bench times it beside the library's.
use std::cmp::Reverse;

const MOST: usize = 64;

/// Each client's part; or the refusal's number, and nothing is written.
pub fn parts(reward: u64, weights: &[u64], parts: &mut [u64]) -> Result<(), u32> {
    if weights.len() > MOST || parts.len() != weights.len() {
        return Err(28);
    }
    let sum = weights.iter().try_fold(0u64, |sum, weight| sum.checked_add(*weight)).ok_or(13u32)?;
    if sum == 0 {
        return Err(29);
    }
    let mut left = reward;
    let mut clients = [(0u64, 0usize); MOST];
    for (client, (part, weight)) in parts.iter_mut().zip(weights).enumerate() {
        let product = u128::from(reward) * u128::from(*weight);
        *part = (product / u128::from(sum)) as u64;
        left -= *part;
        clients[client] = ((product % u128::from(sum)) as u64, client);
    }
    // stable: of equal remainders the earlier client's stays in front
    let clients = &mut clients[..weights.len()];
    clients.sort_by_key(|(remainder, _)| Reverse(*remainder));
    for (_, client) in &clients[..left as usize] {
        parts[*client] += 1;
    }
    Ok(())
}
