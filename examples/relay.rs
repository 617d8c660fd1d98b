// Reads a reply datagram and writes it again. Its bytes are the arguments, in hexadecimal:  relay A3 07 01 B1 14
//     rustc -O examples/relay.rs -L native=crates/wickanchor/out -l static=wickanchor -o target/relay
// Structs and functions are those of include/wickanchor.h: a run of bytes is a pointer and a length, an answer comes by value.

#[repr(C)]
struct Reply {
    refusal: u8,
    kind: u8,
    sequence: u8,
    data_at: u64,
    n: u64,
}

#[repr(C)]
struct Wrote {
    refusal: u8,
    count: u64,
}

const _: () = assert!(std::mem::size_of::<Reply>() == 24 && std::mem::size_of::<Wrote>() == 16);

extern "C" {
    fn wick_reply(bytes: *const u8, length: u64) -> Reply;
    fn wick_relay_reply(bytes: *const u8, length: u64, out: *mut u8, room: u64) -> Wrote;
}

fn hexadecimal(bytes: &[u8]) -> String {
    bytes.iter().map(|b| format!(" {:02X}", b)).collect()
}

fn main() {
    let d: Vec<u8> = std::env::args().skip(1).map(|word| u8::from_str_radix(&word, 16).unwrap()).collect();
    let mut out = [0; 68];
    // each pointer goes with the length of its run, and the two runs share no byte
    let reply = unsafe { wick_reply(d.as_ptr(), d.len() as u64) };
    let wrote = unsafe { wick_relay_reply(d.as_ptr(), d.len() as u64, out.as_mut_ptr(), out.len() as u64) };
    assert_eq!(wrote.refusal, reply.refusal); // there is room for every reply, so both refuse alike
    if reply.refusal != 0 {
        println!("refused: {}", reply.refusal);
        std::process::exit(1);
    }
    let data = &d[reply.data_at as usize..][..reply.n as usize];
    println!("reply {}: type {:02X}, data{}", reply.sequence, reply.kind, hexadecimal(data));
    println!("written again:{}", hexadecimal(&out[..wrote.count as usize]));
}
