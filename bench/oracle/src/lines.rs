//! Interrupt lines that the Rust works out from devices which the port leaves
//! out. Here they are inputs, so each device is put into a state that drives
//! its line as the image has it.

use crate::io::Io;

/// The lines that follow the DMA's INT bits, by controller.
pub(crate) const DMA_OWNED: [u64; 3] = [0xFFFF << 8, ((1 << 40) - 1) << 8, 1];

/// Puts all three controllers' lines as given. Those that a device drives
/// hold when the Rust works them out anew.
pub(crate) fn hold(io: &mut Io, lines: [u64; 3]) {
    for (controller, lines) in io.intc.iter_mut().zip(lines) {
        controller.lines = lines;
    }
    let on = |controller: usize, source: u32| lines[controller] >> source & 1 == 1;
    for n in 0..4 {
        // A timer's flag with its interrupt enabled.
        io.pit[n].pcsr = if on(2, 13 + n as u32) { 0x0C } else { 0 };
        let reference = on(0, 32 + n as u32);
        io.dtim[n].dter = if reference { 0x02 } else { 0 };
        io.dtim[n].dtmr = if reference { 0x10 } else { 0 };
    }
    // The transmitter is always ready; the mask lets it through.
    io.uart8.uimr = u8::from(on(1, 52));
    io.uart9.uimr = u8::from(on(1, 53));
    // The card controller's status and its enable bits.
    io.esdhc.regs[0x30 / 4] = u32::from(on(2, 31));
    io.esdhc.regs[0x38 / 4] = u32::from(on(2, 31));
    io.usb_irq = on(2, 17);
    io.epfr = u8::from(on(0, 2)) << 2 | u8::from(on(0, 4)) << 4;
}
