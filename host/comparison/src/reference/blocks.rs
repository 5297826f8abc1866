//! What the calls of P and S have in common: the checks of lists, wires and lent buffers, and the
//! writing into these.

use mukdalis::Fault;

use super::elements::{Drawing, Tally, LAST_WIRE};

/// The most inputs or outputs of a block.
pub const MAX_SIZE: u32 = 512;

/// 12 if the list has another length.
pub fn check_length(list: &[u16], len: u32) -> Result<(), Fault> {
    if list.len() != len as usize {
        return Err(Fault::Contact);
    }
    Ok(())
}

/// Draws a block of these rows and so many output wires on these input wires, which makes wires from
/// `next` on, and writes its rows and its output wires to the lent buffers. Checks: 13, 11.
pub fn write(
    (tally, output_count): (Tally, u32),
    draw: impl FnOnce(&mut Drawing) -> Vec<u16>,
    inputs: &[u16],
    next: u32,
    rows: &mut [u16],
    outputs: &mut [u16],
) -> Result<(), Fault> {
    let is_unmade = inputs.iter().any(|&wire| u32::from(wire) >= next);
    let is_past = tally.wires() > 0 && next as usize + tally.wires() - 1 > LAST_WIRE;
    if is_unmade || is_past {
        return Err(Fault::Fabric);
    }
    if rows.len() < tally.entries() || outputs.len() < output_count as usize {
        return Err(Fault::Short);
    }
    let mut drawing = Drawing::new(&mut rows[..tally.entries()], next);
    let wires = draw(&mut drawing);
    drawing.finish();
    outputs[..wires.len()].copy_from_slice(&wires);
    Ok(())
}
