//! A responder claims its names on an empty link, and then a browser asks, in simulated time. Run by tests/capi.sh and tests/install.sh.

use std::net::SocketAddr;

use kurgashel::{Arrival, Draws, OutBuffers, Refusal, Responder, Setup, OUT_BYTES, PORT};

/// Takes the steps to come, each when it is due, until none is; tells when that was.
fn take_steps(responder: &mut Responder, mut now: u64) -> Result<u64, Refusal> {
    let mut out = [0; OUT_BYTES];
    while let Some(due) = responder.due() {
        now = due.max(now); // where a caller waits, or takes a packet
        let sent = responder.tick(now, &mut out)?;
        if sent.length > 0 {
            let kind = if out[2] == 0 { "probe" } else { "response" };
            println!(
                "{now:4} ms: {kind} of {} bytes; instance {:?}, host {:?}",
                sent.length,
                responder.instance(),
                responder.host()
            );
        }
    }
    Ok(now)
}

fn main() -> Result<(), Refusal> {
    let setup = Setup::new("booth", "_voice", "_tcp", "dock", 4000, b"\x06room=3", [10, 0, 0, 7], None);
    let mut responder = Responder::start(&setup, 0, 120)?;
    let now = take_steps(&mut responder, 0)? + 1000;

    // A browser asks for the host's address. TC says that known answers follow, so the query is held; none come, and so it is answered when it is due.
    let arrival = Arrival {
        now,
        from: SocketAddr::from(([10, 0, 0, 9], PORT)),
        draws: Draws { reply: 20, hold: 400 },
        packet: b"\0\0\x02\0\0\x01\0\0\0\0\0\0\x04dock\x05local\0\0\x01\0\x01",
    };
    let (mut to_all, mut to_sender) = ([0; OUT_BYTES], [0; OUT_BYTES]);
    let out = OutBuffers { to_all: &mut to_all, to_sender: &mut to_sender };
    let sent = responder.receive(arrival, out)?;
    let length = sent.to_all + sent.to_sender;
    println!("{now:4} ms: a query with TC; {length} bytes go out at once");
    take_steps(&mut responder, now)?;
    Ok(())
}
