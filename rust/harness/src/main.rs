//! The command line with the peer's engines as their own second ones.

fn main() -> std::io::Result<()> {
    harness::cli(&mut harness::Peer, &mut harness::PlainPeer)
}
