//! Panel files: read, written, how a load moves, and the texts that `./panel-order` prints.
use crate::further_calls::{self, Printed};
use crate::{Refusal, MOST, MOST_ENTRIES};
use alloc::string::String;
use alloc::vec;
use alloc::vec::Vec;

/// A crossing: its matrix, column after column, and a reading for each row.
///
/// ```
/// let panel = wejdarox::Panel { matrix: vec![0.0, 2.0, 1.0, 0.0], readings: vec![5.0, 8.0] };
/// assert_eq!(panel.matrix.len(), panel.readings.len() * panel.readings.len());
/// ```
#[derive(Clone, Debug, PartialEq)]
pub struct Panel {
    /// As many numbers as the square of the readings.
    pub matrix: Vec<f64>,
    /// 1 to 64 of them.
    pub readings: Vec<f64>,
}

impl Panel {
    /// Reads a panel file.
    ///
    /// ```
    /// # use wejdarox::Panel;
    /// let panel = Panel { matrix: vec![0.0, 2.0, 1.0, 0.0], readings: vec![5.0, 8.0] };
    /// assert_eq!(Panel::read(&panel.write()?)?, panel);
    /// # Ok::<(), wejdarox::Refusal>(())
    /// ```
    ///
    /// # Errors
    /// 8, 1, 3, 5.
    pub fn read(file: &[u8]) -> Result<Panel, Refusal> {
        let (mut matrix, mut readings, mut pads) = (vec![0.0; MOST_ENTRIES], vec![0.0; MOST], 0);
        Refusal::told(further_calls::read_panel(file, &mut matrix, &mut readings, &mut pads))?;
        matrix.truncate(pads * pads);
        readings.truncate(pads);
        Ok(Panel { matrix, readings })
    }

    /// Its panel file.
    ///
    /// ```
    /// # use wejdarox::Panel;
    /// let file = Panel { matrix: vec![0.0, 2.0, 1.0, 0.0], readings: vec![5.0, 8.0] }.write()?;
    /// assert_eq!(file[..6], *b"LXP\x01\x00\x02");
    /// # Ok::<(), wejdarox::Refusal>(())
    /// ```
    ///
    /// # Errors
    /// 1 where there is no reading or more than 64; 3 where the matrix has another length than the readings ask for; 5.
    pub fn write(&self) -> Result<Vec<u8>, Refusal> {
        let (n, mut count) = (self.readings.len(), 0);
        let room = n.min(MOST);
        let mut out = vec![0; 6 + 8 * (room * room + room)];
        Refusal::told(further_calls::write_panel(n, &self.matrix, &self.readings, &mut out, &mut count))?;
        out.truncate(count);
        Ok(out)
    }
}

/// How the load of a pad, counted from 1, moves with each reading of a panel file.
///
/// ```
/// # use wejdarox::{moves, Panel};
/// let file = Panel { matrix: vec![0.0, 2.0, 1.0, 0.0], readings: vec![5.0, 8.0] }.write()?;
/// assert_eq!(moves(&file, 1)?, [0.0, 0.5]);
/// # Ok::<(), wejdarox::Refusal>(())
/// ```
///
/// # Errors
/// 8, 1 (also where there is no such pad), 3, 5, 6, 7.
pub fn moves(file: &[u8], pad: usize) -> Result<Vec<f64>, Refusal> {
    let (mut out, mut pads, mut toss_ups) = ([0.0; MOST], 0, 0);
    Refusal::told(further_calls::moves(file, pad, &mut out, &mut pads, &mut toss_ups))?;
    Ok(out[..pads].to_vec())
}

fn printed(which: Printed, file: &[u8]) -> String {
    let mut out = [0; 1288];
    let count = further_calls::text(which, file, &mut out);
    out[..count].iter().map(|&byte| char::from(byte)).collect()
}

/// What `./panel-order` prints for a file: its pads in the order to lift them with the bits of their loads, or `refused K`.
///
/// ```
/// assert_eq!(wejdarox::text(b"no panel file"), "refused 8\n");
/// ```
#[must_use]
pub fn text(file: &[u8]) -> String {
    printed(Printed::Order, file)
}

/// What it prints of how a pad's load moves.
///
/// ```
/// assert_eq!(wejdarox::moves_text(b"no panel file", 1), "refused 8\n");
/// ```
#[must_use]
pub fn moves_text(file: &[u8], pad: usize) -> String {
    printed(Printed::Moves(pad), file)
}

/// What it prints of the stiffness.
///
/// ```
/// assert_eq!(wejdarox::stiffness_text(b"no panel file"), "refused 8\n");
/// ```
#[must_use]
pub fn stiffness_text(file: &[u8]) -> String {
    printed(Printed::Stiffness, file)
}

/// What it prints of why a file is refused: `no reason`, or `refused K` and for 6 and 7 the place.
///
/// ```
/// # use wejdarox::{why_text, Panel};
/// let file = Panel { matrix: vec![1.0, 0.0, 1.0, 0.0], readings: vec![5.0, 8.0] }.write()?;
/// assert_eq!(why_text(&file), "refused 6\ncolumn 2\n");
/// # Ok::<(), wejdarox::Refusal>(())
/// ```
#[must_use]
pub fn why_text(file: &[u8]) -> String {
    printed(Printed::Why, file)
}

/// The version of the library that is linked: its three numbers.
///
/// ```
/// assert_eq!(wejdarox::library_version(), (0, 8, 0));
/// ```
#[must_use]
pub fn library_version() -> (usize, usize, usize) {
    let number = further_calls::version();
    (number / 1_000_000, number / 1_000 % 1_000, number % 1_000)
}
