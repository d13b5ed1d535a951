//! The plain engine of document 02 on the worked values of document 01, and beside the paged machine.
use peer::plain::{host_read, host_write, load, page_view, reply, run, Plain, Ran, WORDS};
use peer::PAGE;

const ADDI: u32 = 0x2401_0007; // addi 1,0,7
const SW: u32 = 0xAC01_0040; // sw 1,64(0)
const TRAP5: u32 = 0xF800_0005;

fn image(rights: &[u8], start: u32, frames: u32, words: &[(usize, u32)]) -> Vec<u8> {
    let ptl = rights.len();
    let mut file = vec![0; PAGE * ptl];
    for &(at, word) in words {
        file[at..at + 4].copy_from_slice(&word.to_le_bytes());
    }
    file.extend(rights);
    for number in [24 + ptl as u32, (24 + ptl + PAGE * ptl) as u32, ptl as u32, start, frames, 1] {
        file.extend(number.to_le_bytes());
    }
    file
}

#[derive(Clone, Debug, PartialEq)]
struct Guest {
    plain: Plain,
    memory: Vec<u8>,
    rights: Vec<u8>,
}

impl Guest {
    fn new(rights: &[u8], words: &[(usize, u32)]) -> Self {
        Guest::load(&image(rights, 0, 0, words), rights.len()).unwrap()
    }

    fn load(file: &[u8], ptl: usize) -> Result<Self, u32> {
        let (mut memory, mut rights) = (vec![0x5A; PAGE * ptl], vec![0xA5; ptl]);
        let plain = load(file, &mut memory, &mut rights)?;
        Ok(Guest { plain, memory, rights })
    }

    fn run(&mut self, limit: u32) -> Result<Ran, u32> {
        run(&mut self.plain, &mut self.memory, &self.rights, limit)
    }

    fn read(&self, va: u32, buffer: &mut [u8]) -> Result<(), u32> {
        host_read(&self.plain, &self.memory, &self.rights, va, buffer)
    }

    fn write(&mut self, va: u32, bytes: &[u8]) -> Result<(), u32> {
        host_write(&self.plain, &mut self.memory, &self.rights, va, bytes)
    }

    fn view(&self, page: u32) -> Result<&[u8], u32> {
        page_view(&self.plain, &self.memory, &self.rights, page)
    }

    /// The refusal of each call that tests the machine, on one like this, changed by hand.
    fn refused(&self, change: impl FnOnce(&mut Guest)) -> [Option<u32>; 4] {
        let mut guest = self.clone();
        change(&mut guest);
        let before = guest.clone();
        let refusals = [
            guest.run(1_000_001).err(),
            guest.read(0, &mut [0; 257]).err(),
            guest.write(0, &[0; 257]).err(),
            guest.view(u32::MAX).err(),
        ];
        assert_eq!(guest, before);
        refusals
    }
}

/// One instruction on page 0 of two pages.
fn one(word: u32, set: &[(u32, u32)]) -> (Ran, Guest) {
    let mut guest = Guest::new(&[3, 3], &[(0, word)]);
    for &(register, value) in set {
        reply(&mut guest.plain, register, value).unwrap();
    }
    (guest.run(1).unwrap(), guest)
}

#[test]
fn words_mean_what_they_should() {
    let going = Ran { stop: 0, detail: 0, finished: 1 };
    let (ran, guest) = one(ADDI, &[]);
    assert_eq!((ran, guest.plain.gpr[1], guest.plain.gpr.iter().sum::<u32>()), (going, 7, 7));
    assert_eq!((guest.plain.dpc, guest.plain.pcp), (4, 8));

    let (ran, guest) = one(SW, &[(1, 0x0102_0304)]);
    assert_eq!((ran, &guest.memory[63..69]), (going, &[0, 4, 3, 2, 1, 0][..]));

    let (ran, guest) = one(TRAP5, &[]);
    assert_eq!(ran, Ran { stop: 1, detail: 5, finished: 1 });
    assert_eq!((guest.plain.dpc, guest.plain.pcp), (4, 8));

    let (ran, guest) = one(0, &[(3, 9)]);
    assert_eq!((ran, guest.plain.gpr[3], guest.plain.gpr.iter().sum::<u32>()), (going, 9, 9));
    assert_eq!((guest.plain.dpc, guest.plain.pcp), (4, 8));
}

#[test]
fn arithmetic() {
    let r = |function: u32| 1 << 21 | 2 << 16 | 3 << 11 | function;
    assert_eq!(one(r(33), &[(1, 0x7FFF_FFFF), (2, 1)]).1.plain.gpr[3], 0x8000_0000);
    assert_eq!(one(r(41), &[(1, 0x8000_0000), (2, 0)]).1.plain.gpr[3], 0);
    assert_eq!(one(1 << 21 | 3 << 11 | 31 << 6 | 3, &[(1, 0x8000_0000)]).1.plain.gpr[3], 0xFFFF_FFFF);
    // lw 3,8(1) at 0xFFFFFFFC reads address 4.
    let mut guest = Guest::new(&[3], &[(0, 35 << 26 | 1 << 21 | 3 << 16 | 8), (4, 0xCAFE_F00D)]);
    reply(&mut guest.plain, 1, 0xFFFF_FFFC).unwrap();
    guest.run(1).unwrap();
    assert_eq!(guest.plain.gpr[3], 0xCAFE_F00D);
}

#[test]
fn the_guest_ends_at_ptl() {
    let lbu = 36 << 26 | 1 << 21 | 3 << 16;
    assert_eq!(one(lbu, &[(1, 8191)]).0, Ran { stop: 0, detail: 0, finished: 1 });
    assert_eq!(one(lbu, &[(1, 8192)]).0, Ran { stop: 2, detail: 8192, finished: 0 });
    let guest = Guest::new(&[3, 3], &[]);
    assert_eq!(guest.read(8191, &mut [0]), Ok(()));
    assert_eq!(guest.read(8191, &mut [0, 0]), Err(3));
    assert_eq!(guest.read(8192, &mut [0]), Err(3));
    assert_eq!(guest.read(8192, &mut []), Ok(()));
    assert_eq!(guest.read(u32::MAX, &mut [0, 0]), Err(3));
    assert_eq!(guest.read(u32::MAX, &mut []), Ok(()));
    assert_eq!(
        (guest.view(1).map(<[u8]>::len), guest.view(2), guest.view(u32::MAX)),
        (Ok(PAGE), Err(3), Err(3))
    );
}

/// Loads and fetches need r, stores w; a host likewise; every page of a transfer counts.
#[test]
fn rights() {
    let (lw, sw) = (35 << 26 | 1 << 21, 43 << 26 | 1 << 21);
    let stop_of = |rights: u8, word: u32| {
        let mut guest = Guest::new(&[3, rights], &[(0, word)]);
        reply(&mut guest.plain, 1, 4096).unwrap();
        let before = guest.clone();
        let ran = guest.run(1).unwrap();
        assert!(ran.finished == 1 || guest == before);
        (ran.stop, ran.detail)
    };
    let (fine, illegal) = ((0, 0), (2, 4096));
    assert_eq!([0, 1, 2, 3].map(|rights| stop_of(rights, lw)), [illegal, fine, illegal, fine]);
    assert_eq!([0, 1, 2, 3].map(|rights| stop_of(rights, sw)), [illegal, illegal, fine, fine]);
    for (rights, read, write) in
        [(0, Err(3), Err(3)), (1, Ok(()), Err(3)), (2, Err(3), Ok(())), (3, Ok(()), Ok(()))]
    {
        let mut guest = Guest::new(&[3, rights, 3], &[]);
        let before = guest.clone();
        let mut buffer = [0xEE; 2];
        assert_eq!((guest.read(4095, &mut buffer), guest.read(8191, &mut [0; 2])), (read, read));
        assert_eq!(buffer, if read.is_ok() { [0; 2] } else { [0xEE; 2] });
        assert_eq!((guest.write(4095, &[7, 7]), guest.write(8191, &[7, 7])), (write, write));
        assert!(write.is_ok() || guest == before);
        assert_eq!(guest.view(1).is_ok(), read.is_ok());
    }
    let mut guest = Guest::load(&image(&[3, 2], 4096, 0, &[]), 2).unwrap();
    assert_eq!(guest.run(1), Ok(Ran { stop: 2, detail: 4096, finished: 0 }), "a fetch");
}

/// DPC before its page, the word before its address, and its width before its page.
#[test]
fn stops_come_in_order() {
    let stop_of = |start: u32, word: u32| {
        let mut guest = Guest::new(&[3], &[(0, word)]);
        (guest.plain.dpc, guest.plain.pcp) = (start, start.wrapping_add(4));
        let before = guest.clone();
        let ran = guest.run(9).unwrap();
        assert_eq!(guest, before);
        assert_eq!(guest.run(9), Ok(ran), "they come again");
        (ran.stop, ran.detail, ran.finished)
    };
    assert_eq!(stop_of(4098, 0), (3, 4098, 0));
    assert_eq!(stop_of(4096, 0), (2, 4096, 0));
    assert_eq!(stop_of(0, 0xFFFF_FFFF), (4, 0xFFFF_FFFF, 0));
    assert_eq!(stop_of(0, 16), (4, 16, 0));
    assert_eq!(stop_of(0, 35 << 26 | 0x7FFE), (3, 0x7FFE, 0));
    assert_eq!(stop_of(0, 33 << 26 | 0x7FFF), (3, 0x7FFF, 0));
    assert_eq!(stop_of(0, 35 << 26 | 0x7FFC), (2, 0x7FFC, 0));
    assert_eq!(stop_of(0, 40 << 26 | 0xFFFF), (2, 0xFFFF_FFFF, 0));
}

/// "Host write of 37 2C 35 (hex) at 4095": there are no two places here.
#[test]
fn a_write_across_two_pages() {
    let mut guest = Guest::new(&[3, 3], &[]);
    guest.write(4095, &[0x37, 0x2C, 0x35]).unwrap();
    assert_eq!(guest.memory[4094..4099], [0, 0x37, 0x2C, 0x35, 0]);
    assert_eq!((guest.view(0).unwrap()[4095], &guest.view(1).unwrap()[..3]), (0x37, &[0x2C, 0x35, 0][..]));
}

#[test]
fn bounds() {
    let mut guest = Guest::new(&[3], &[(0, 2 << 26 | 0x03FF_FFFC)]); // j to itself
    assert_eq!(guest.run(0), Ok(Ran::default()));
    assert_eq!(guest.run(1_000_000), Ok(Ran { stop: 0, detail: 0, finished: 1_000_000 }));
    assert_eq!(guest.run(1_000_001), Err(4));
    assert_eq!((guest.write(0, &[0; 256]), guest.write(0, &[0; 257])), (Ok(()), Err(4)));
    assert_eq!((guest.read(0, &mut [0; 256]), guest.read(9999, &mut [0; 257])), (Ok(()), Err(4)));
    for (register, answer) in [(0, Err(4)), (1, Ok(())), (31, Ok(())), (32, Err(4))] {
        assert_eq!(reply(&mut guest.plain, register, 1), answer);
    }
    let words = guest.plain.to_words();
    assert_eq!((words[0], words[1], words[2], words[32], words.len()), (1, 0, 1, 1, WORDS));
    assert_eq!(Plain::from_words(&words), guest.plain);
    assert_eq!(Plain::from_words(&std::array::from_fn(|i| i as u32)).to_words()[34], 34);
}

/// "1 for ptl or a lent length, 2 only for GPR 0 not 0 or a rights byte above 3", before 4 and 3; the reply
/// looks at nothing.
#[test]
fn refusals_come_in_order() {
    let sound = Guest::new(&[3, 0, 2, 1], &[]);
    assert_eq!(sound.refused(|_| {}), [Some(4), Some(4), Some(4), Some(3)]);
    for ptl in [0, 3, 5, 1025, 1 << 20, u32::MAX] {
        assert_eq!(sound.refused(|guest| guest.plain.ptl = ptl), [Some(1); 4], "ptl {ptl}");
    }
    for len in [0, 4 * PAGE - 1, 4 * PAGE + 1, 5 * PAGE] {
        assert_eq!(sound.refused(|guest| guest.memory.resize(len, 0)), [Some(1); 4], "{len} bytes");
    }
    for len in [0, 3, 5] {
        assert_eq!(sound.refused(|guest| guest.rights.resize(len, 3)), [Some(1); 4], "{len} rights");
    }
    for page in 0..4 {
        for byte in [4, 7, 128, 255] {
            assert_eq!(sound.refused(|guest| guest.rights[page] = byte), [Some(2); 4]);
        }
        assert!(sound.refused(|guest| guest.rights[page] = 3)[0] == Some(4));
    }
    assert_eq!(sound.refused(|guest| guest.plain.gpr[0] = 1), [Some(2); 4]);
    assert_eq!(
        sound.refused(|guest| {
            guest.plain.gpr[0] = 1;
            guest.rights.push(4);
        }),
        [Some(1); 4]
    );
    // Whole in itself, at and past the bounds of ptl.
    for (ptl, answer) in [(0, Some(1)), (1, Some(4)), (1024, Some(4)), (1025, Some(1))] {
        let refused = sound.refused(|guest| {
            guest.plain.ptl = ptl as u32;
            guest.memory.resize(PAGE * ptl, 0);
            guest.rights.resize(ptl, 3);
        });
        assert_eq!(refused[0], answer, "ptl {ptl}");
    }
    let mut nothing = Plain { ptl: 9999, ..Plain::default() };
    assert_eq!((reply(&mut nothing, 31, 7), nothing.gpr[31]), (Ok(()), 7));
}

/// "at loading 5, 6, and 7 for a lent length": frames keep their rule, though there are none.
#[test]
fn loading() {
    let file = image(&[3, 1], 8, 0, &[(0, ADDI), (4, SW), (8, TRAP5)]);
    let mut guest = Guest::load(&file, 2).unwrap();
    let (dpc, pcp) = (8, 12);
    assert_eq!(guest.plain, Plain { ptl: 2, dpc, pcp, ..Plain::default() });
    assert_eq!((&guest.memory[..], &guest.rights[..]), (&file[..2 * PAGE], &[3, 1][..]));
    assert_eq!(guest.run(9), Ok(Ran { stop: 1, detail: 5, finished: 1 }));
    for frames in [0, 2, 3, 32] {
        assert!(Guest::load(&image(&[3], 0, frames, &[]), 1).is_ok());
    }
    for frames in [1, 33, u32::MAX] {
        assert_eq!(Guest::load(&image(&[3], 0, frames, &[]), 2), Err(6));
    }
    assert_eq!(Guest::load(&file[..23], 2), Err(5));
    assert_eq!(Guest::load(&image(&[4], 0, 0, &[]), 2), Err(6));
    for (bytes, rights) in
        [(8191, 2), (8193, 2), (4096, 2), (0, 2), (8192, 1), (8192, 3), (8192, 0), (4096, 1)]
    {
        let (mut memory, mut lent) = (vec![0x5A; bytes], vec![0xA5; rights]);
        assert_eq!(load(&file, &mut memory, &mut lent), Err(7), "{bytes} bytes, {rights} rights");
        assert!(memory.iter().all(|&byte| byte == 0x5A) && lent.iter().all(|&byte| byte == 0xA5));
    }
    let guest = Guest::load(&image(&[3], u32::MAX - 3, 0, &[]), 1).unwrap();
    assert_eq!((guest.plain.dpc, guest.plain.pcp), (u32::MAX - 3, 0));
}

/// "From the same image and the same run, host and reply calls it must give the same" as the paged machine.
#[test]
fn the_same_as_the_paged_machine() {
    let lw = |rd: u32, va: u32| 35 << 26 | rd << 16 | va;
    let sw = |rd: u32, va: u32| 43 << 26 | rd << 16 | va;
    let words = [
        (0, lw(2, 4096)),
        (4, sw(1, 8192)),
        (8, sw(2, 12288)),
        (12, lw(3, 8192)),
        (16, TRAP5),
        (20, sw(3, 4096)),
    ];
    let file = image(&[3, 1, 3, 2], 0, 2, &words);
    let mut plain = Guest::load(&file, 4).unwrap();
    let (mut main, mut swap) = (vec![0; 3 * PAGE], vec![0; 4 * PAGE]);
    let mut rec = peer::load(&file, &mut main, &mut swap).unwrap();
    for value in 1..4 {
        assert_eq!(reply(&mut plain.plain, 1, value), peer::reply(&mut rec, 1, value));
        for limit in [1, 0, 2, 1_000_001, 2, 1000, 1000] {
            let (ours, theirs) = (plain.run(limit), peer::run(&mut rec, &mut main, &mut swap, limit));
            let told = |ran: peer::Ran| Ran { stop: ran.stop, detail: ran.detail, finished: ran.finished };
            assert_eq!(ours, theirs.map(told));
            assert_eq!((plain.plain.gpr, plain.plain.dpc, plain.plain.pcp), (rec.gpr, rec.dpc, rec.pcp));
            assert_eq!(
                (0..5).map(|x| plain.view(x)).collect::<Vec<_>>(),
                (0..5).map(|x| peer::page_view(&rec, &main, &swap, x)).collect::<Vec<_>>()
            );
        }
        let bytes = [value as u8; 5];
        for va in [4094, 8190, 8192, 12286, 16380] {
            assert_eq!(plain.write(va, &bytes), peer::host_write(&mut rec, &mut main, &mut swap, va, &bytes));
        }
        (plain.plain.dpc, plain.plain.pcp) = (0, 4);
        (rec.dpc, rec.pcp) = (0, 4);
    }
}
