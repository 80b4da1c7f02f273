//! Lists the packet on standard input, as `mip decode` does, over the declarations of mip.h that it needs.
//!     rustc -O decode.rs -L PREFIX/lib -l mip
use std::io::{self, Read, Write};

const MIP_OK: u32 = 0;
const MIP_NO_ROOM: u32 = 10;

extern "C" {
    fn mip_decode(packet: *const u8, packet_len: usize, text: *mut u8, text_len: usize, size: *mut usize) -> u32;
}

/// The listing of a packet, or the status that refuses it. A slice's pointer is never null, and a vector is initialised: so much the header asks for.
fn decode(packet: &[u8]) -> Result<Vec<u8>, u32> {
    let (mut text, mut size) = (Vec::new(), 0);
    loop {
        let status = unsafe { mip_decode(packet.as_ptr(), packet.len(), text.as_mut_ptr(), text.len(), &mut size) };
        match status {
            MIP_OK => return Ok(text),
            MIP_NO_ROOM => text = vec![0; size],
            _ => return Err(status),
        }
    }
}

fn main() -> io::Result<()> {
    let mut packet = Vec::new();
    io::stdin().read_to_end(&mut packet)?;
    match decode(&packet) {
        Ok(text) => io::stdout().write_all(&text),
        Err(status) => {
            eprintln!("decode: status {status}");
            std::process::exit(8)
        }
    }
}
