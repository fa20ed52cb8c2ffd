//! What guarantees and limits ask of charges, for (b), (c) and (d). A cabin claims the larger of its guarantee and its charge.

use telephone::raw::Quotas;

/// Steps of each cabin.
pub type Charges = [u16; 8];

/// Whether guarantees and charges are within the limits, and the claims leave a place for step 0. The capacity is 1 to 128, so that no claim above
/// 127 fits, and a sum of smaller ones has few bits.
#[inline(always)]
pub fn fit(capacity: u16, quotas: &Quotas, charges: &Charges) -> bool {
    let (mut bad, mut claimed) = (0, 0u16);
    for (quota, &charge) in quotas.iter().zip(charges) {
        let claim = quota.guarantee.max(charge);
        bad |= claim.saturating_sub(quota.limit) | claim & !127;
        claimed = claimed.wrapping_add(claim);
    }
    bad == 0 && claimed < capacity
}

/// Refuses a list that no table of this capacity can have; then one that these charges do not fit.
pub fn refuse_list(capacity: u16, quotas: &Quotas, charges: &Charges) -> Result<(), u16> {
    if !fit(capacity, quotas, &[0; 8]) {
        return Err(16);
    }
    if !fit(capacity, quotas, charges) {
        return Err(13);
    }
    Ok(())
}

/// Refuses one step more of a cabin, 0 to 7, where the charges fit: at its limit; then where the claims would no longer fit. Below its guarantee a
/// cabin claims no more with a step more.
#[inline(always)]
pub fn refuse_step(
    capacity: u16,
    quotas: &Quotas,
    charges: &Charges,
    cabin: u16,
) -> Result<(), u16> {
    let cabin = usize::from(cabin) % charges.len();
    if charges[cabin] == quotas[cabin].limit {
        return Err(14);
    }
    let mut more = *charges;
    more[cabin] += 1;
    if !fit(capacity, quotas, &more) {
        return Err(15);
    }
    Ok(())
}
