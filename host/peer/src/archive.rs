//! The core's archive liblap.a: its five C functions, each behind a safe function over slices.
//! This is the one module with unsafe code; it hands each buffer over with its own length and nothing else.

use crate::event::Event;

/// The functions as C has them.
type Fresh = unsafe extern "C" fn(*mut u8, usize, *mut u8, usize, *const u8, usize) -> u32;
type Quiet = unsafe extern "C" fn(*mut u8, usize, *mut u8, usize, *mut u8, usize, u32, *mut u32) -> u32;
type Packet =
    unsafe extern "C" fn(*mut u8, usize, *mut u8, usize, *mut u8, usize, u32, *const u8, usize, *mut u32) -> u32;

/// The functions of one archive that take events; an older archive has these alone.
pub struct Calls {
    fresh: Fresh,
    open: Quiet,
    close: Quiet,
    packet: Packet,
}

/// Declares the functions of an archive under the names that the linker finds them by.
macro_rules! calls {
    ($fresh:literal, $open:literal, $close:literal, $packet:literal) => {{
        extern "C" {
            #[link_name = $fresh]
            fn fresh(
                table: *mut u8,
                table_len: usize,
                workloads: *mut u8,
                workloads_len: usize,
                name: *const u8,
                name_len: usize,
            ) -> u32;
            #[link_name = $open]
            fn open(
                table: *mut u8,
                table_len: usize,
                workloads: *mut u8,
                workloads_len: usize,
                output: *mut u8,
                output_len: usize,
                connection: u32,
                length: *mut u32,
            ) -> u32;
            #[link_name = $close]
            fn close(
                table: *mut u8,
                table_len: usize,
                workloads: *mut u8,
                workloads_len: usize,
                output: *mut u8,
                output_len: usize,
                connection: u32,
                length: *mut u32,
            ) -> u32;
            #[link_name = $packet]
            fn packet(
                table: *mut u8,
                table_len: usize,
                workloads: *mut u8,
                workloads_len: usize,
                output: *mut u8,
                output_len: usize,
                connection: u32,
                packet: *const u8,
                packet_len: usize,
                length: *mut u32,
            ) -> u32;
        }
        Calls { fresh, open, close, packet }
    }};
}

/// The archive that is compared with the ordinary server.
pub static ARCHIVE: Calls = calls!("lap_fresh", "lap_open", "lap_close", "lap_packet");

/// An older archive, its functions renamed by host/bench.sh so that both can be linked. One from before request 5 of
/// document 02 makes a fresh table without a name: the two arguments more come in registers that it does not read, and
/// its hub is always `lap`. Its table is shorter, and a longer one is never refused.
#[cfg(feature = "before")]
pub static BEFORE: Calls = calls!("before_fresh", "before_open", "before_close", "before_packet");

extern "C" {
    fn lap_text(
        table: *const u8,
        table_len: usize,
        workloads: *const u8,
        workloads_len: usize,
        output: *mut u8,
        output_len: usize,
        connection: u32,
        line: *const u8,
        line_len: usize,
        length: *mut u32,
    ) -> u32;
}

/// What stands in the length before a call, so that a call which leaves it alone is seen.
pub const NO_LENGTH: u32 = 0xdead_beef;

/// The number and the length that a call reports.
pub type Report = (u32, u32);

impl Calls {
    pub fn fresh(&self, table: &mut [u8], workloads: &mut [u8], name: &[u8]) -> u32 {
        // Safe: the archive touches only the bytes it is lent, and slices do not overlap; the name is only read.
        unsafe {
            (self.fresh)(
                table.as_mut_ptr(),
                table.len(),
                workloads.as_mut_ptr(),
                workloads.len(),
                name.as_ptr(),
                name.len(),
            )
        }
    }

    pub fn open(&self, table: &mut [u8], workloads: &mut [u8], output: &mut [u8], connection: u32) -> Report {
        quiet(self.open, table, workloads, output, connection)
    }

    pub fn close(&self, table: &mut [u8], workloads: &mut [u8], output: &mut [u8], connection: u32) -> Report {
        quiet(self.close, table, workloads, output, connection)
    }

    pub fn packet(
        &self,
        table: &mut [u8],
        workloads: &mut [u8],
        output: &mut [u8],
        connection: u32,
        packet: &[u8],
    ) -> Report {
        let mut length = NO_LENGTH;
        // Safe: as above; the packet is only read, and `length` lives through the call.
        let number = unsafe {
            (self.packet)(
                table.as_mut_ptr(),
                table.len(),
                workloads.as_mut_ptr(),
                workloads.len(),
                output.as_mut_ptr(),
                output.len(),
                connection,
                packet.as_ptr(),
                packet.len(),
                &mut length,
            )
        };
        (number, length)
    }

    /// The call for an event.
    pub fn event(&self, table: &mut [u8], workloads: &mut [u8], output: &mut [u8], event: &Event) -> Report {
        match event {
            Event::Open(connection) => self.open(table, workloads, output, *connection),
            Event::Close(connection) => self.close(table, workloads, output, *connection),
            Event::Packet(connection, bytes) => self.packet(table, workloads, output, *connection, bytes),
        }
    }
}

/// The text entry of the archive that is compared.
pub fn text(table: &[u8], workloads: &[u8], output: &mut [u8], connection: u32, line: &[u8]) -> Report {
    let mut length = NO_LENGTH;
    // Safe: as above; table, workloads and line are only read.
    let number = unsafe {
        lap_text(
            table.as_ptr(),
            table.len(),
            workloads.as_ptr(),
            workloads.len(),
            output.as_mut_ptr(),
            output.len(),
            connection,
            line.as_ptr(),
            line.len(),
            &mut length,
        )
    };
    (number, length)
}

/// A call without a packet.
fn quiet(call: Quiet, table: &mut [u8], workloads: &mut [u8], output: &mut [u8], connection: u32) -> Report {
    let mut length = NO_LENGTH;
    // Safe: as above.
    let number = unsafe {
        call(
            table.as_mut_ptr(),
            table.len(),
            workloads.as_mut_ptr(),
            workloads.len(),
            output.as_mut_ptr(),
            output.len(),
            connection,
            &mut length,
        )
    };
    (number, length)
}
