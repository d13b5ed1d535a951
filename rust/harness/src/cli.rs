//! The command line, for any second engines.
use crate::generate::Generator;
use crate::{compare, compare_plain, compare_texts};
use crate::{Engine, Notation, Peer, PlainEngine, PlainPeer};
use std::fmt::Display;
use std::io::{self, Read, Write};

/// `[seed] [calls]` compares the peer with `second`; `plain [seed] [calls]` both with `plain` and the peer's
/// plain engine; `texts [seed] [texts]` the peer's assembler and lister with those of `second`; `console` prints
/// what the console program should print for standard input; `image <seed>` writes a small image, good or
/// damaged, to standard output.
pub fn cli<E: Engine + Notation>(second: &mut E, plain: &mut dyn PlainEngine) -> io::Result<()> {
    let args: Vec<String> = std::env::args().skip(1).collect();
    let number = |i: usize, default: u64| args.get(i).and_then(|arg| arg.parse().ok()).unwrap_or(default);
    match args.first().map(String::as_str) {
        Some("console") => {
            let mut input = Vec::new();
            io::stdin().lock().read_to_end(&mut input)?;
            print!("{}", peer::console(&input));
        }
        Some("image") => {
            let seed = number(1, 1);
            let mut generator = Generator::new(seed, 0);
            let image = generator.image(1 + (seed / 2 % 5) as u32);
            let image = if seed % 2 == 0 { image } else { generator.damaged(image) };
            io::stdout().write_all(&image.bytes())?;
        }
        Some("texts") => tell(compare_texts(number(1, 1), number(2, 100_000) as usize, &mut Peer, second)),
        Some("plain") => {
            let (seed, calls) = (number(1, 1), number(2, 200_000));
            tell(compare_plain(seed, calls, [&mut Peer, second], [&mut PlainPeer, plain]));
        }
        _ => tell(compare(number(0, 1), number(1, 200_000), &mut Peer, second)),
    }
    Ok(())
}

/// Prints what was compared, or the difference, which ends the program with status 1.
fn tell<S: Display, F: Display>(outcome: Result<S, F>) {
    match outcome {
        Ok(stats) => println!("{stats}"),
        Err(failure) => {
            println!("{failure}");
            std::process::exit(1);
        }
    }
}
