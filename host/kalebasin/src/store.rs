//! The messages in a store, as slices.

use crate::STORE_ROW;

/// The bytes of each message that play left in a store, in the order sent: of each of the first `messages` rows the
/// part that is the message, as `read_message` takes it.
///
/// ```
/// let mut store = [0; 32 * 2];
/// store[..16].copy_from_slice(&[0, 0, 0, 3, 0, 0, 0, 1, 0, 0, 0, 9, 0, 0, 0, 2]);
/// let sent: Vec<&[u8]> = kalebasin::sent(&store, 1).collect();
/// assert_eq!(sent, [&store[..16]]);
/// ```
pub fn sent(store: &[u8], messages: u32) -> impl Iterator<Item = &[u8]> {
    store.chunks_exact(STORE_ROW).take(messages as usize).map(|row| &row[..message_length(row)])
}

/// The length of the message at the front of a row, by its kind, and of a JOIN by its presence.
fn message_length(row: &[u8]) -> usize {
    match (row[7], row[19]) {
        (1 | 4, _) => 16,
        (2, 0) => 20,
        (3, _) => 24,
        _ => STORE_ROW,
    }
}
