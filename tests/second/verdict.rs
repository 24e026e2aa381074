//! The verdict (01, Forms of the strict reading, its last paragraph).

use crate::forms::Row;

/// The first row that is not supported; a file passes exactly when there is none.
pub fn first_not_supported(rows: &[Row]) -> Option<usize> {
    (0..rows.len()).find(|&number| match rows[number].form {
        19 | 20 | 32 | 33 => true,
        // A label is the first child, so its statement stands right before it.
        30 => matches!(rows[number - 1].form, 21..=23),
        _ => false,
    })
}
