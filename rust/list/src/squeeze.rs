//! A list without the settings that change nothing.

use greystroke::{squeeze_list, ListRefusal};

/// The squeezed list: its own bytes where nothing is to be left out.
///
/// # Errors
///
/// The refusal of a list that is not accepted.
pub fn squeeze(list: &[u8]) -> Result<Vec<u8>, ListRefusal> {
    // No squeezed list is longer.
    let mut squeezed = vec![0; list.len()];
    let length = squeeze_list(&mut squeezed, list)?;
    squeezed.truncate(length);
    Ok(squeezed)
}
