//! Reads a network file, tells what is in it, and writes it back.
//!   read NETWORK

#[repr(C)]
struct Reply {
    number: u32,
    length: u32,
}

mod linked {
    use super::Reply;
    extern "C" {
        pub fn haul_read(net: *const u8, net_len: usize, list: *mut u32, list_len: usize) -> Reply;
        pub fn haul_write(list: *const u32, list_len: usize, out: *mut u8, out_len: usize) -> Reply;
    }
}

fn haul_read(net: &[u8], list: &mut [u32]) -> Reply {
    unsafe { linked::haul_read(net.as_ptr(), net.len(), list.as_mut_ptr(), list.len()) }
}

fn haul_write(list: &[u32], out: &mut [u8]) -> Reply {
    unsafe { linked::haul_write(list.as_ptr(), list.len(), out.as_mut_ptr(), out.len()) }
}

const MOST_NET_BYTES: usize = 16_132;
const MOST_NET_NUMBERS: usize = 10_243;

fn main() {
    let path = std::env::args().nth(1).expect("read NETWORK");
    let net = std::fs::read(path).expect("the network file");
    let mut list = vec![0; MOST_NET_NUMBERS];
    let read = haul_read(&net, &mut list);
    println!("read: answer {}, {} numbers", read.number, read.length);
    if read.number != 0 {
        std::process::exit(1);
    }
    println!("{} places, {} legs", list[1], list[2]);
    let mut back = vec![0; MOST_NET_BYTES];
    let written = haul_write(&list[..read.length as usize], &mut back);
    println!("write: answer {}, {} bytes", written.number, written.length);
    assert!(written.number == 0 && back[..written.length as usize] == net, "the bytes written are not those read");
    println!("the bytes written are those read");
}
