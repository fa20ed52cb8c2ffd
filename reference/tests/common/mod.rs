//! What more than one test file uses.

use reference::image::write;
use reference::table::Table;

/// The written image of a sound table.
pub fn image_of(table: &Table) -> Vec<u8> {
    let mut buffer = vec![0; 2858];
    let answer = write(table, &mut buffer);
    assert_eq!(answer.refusal, 0);
    buffer.truncate(answer.first.into());
    buffer
}
