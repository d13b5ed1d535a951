//! Every worked value of document 01, and the marks of document 02, through the public calls alone.
use peer::*;

const ADDI: u32 = 0x2401_0007; // addi 1,0,7
const SW: u32 = 0xAC01_0040; // sw 1,64(0)
const TRAP5: u32 = 0xF800_0005;

fn image(rights: &[u8], start: u32, frames: u32, words: &[(usize, u32)]) -> Vec<u8> {
    let ptl = rights.len();
    let mut file = vec![0; PAGE * ptl];
    for &(at, word) in words {
        file[at..at + 4].copy_from_slice(&word.to_le_bytes());
    }
    file.extend(rights);
    for number in [24 + ptl as u32, (24 + ptl + PAGE * ptl) as u32, ptl as u32, start, frames, 1] {
        file.extend(number.to_le_bytes());
    }
    file
}

struct Guest {
    rec: Record,
    main: Vec<u8>,
    swap: Vec<u8>,
}

impl Guest {
    fn new(rights: &[u8], frames: u32, words: &[(usize, u32)]) -> Self {
        let (mut main, mut swap) = (vec![0xA5; 6 * PAGE], vec![0x5A; PAGE * rights.len()]);
        let rec = load(&image(rights, 0, frames, words), &mut main, &mut swap).unwrap();
        Guest { rec, main, swap }
    }

    fn run(&mut self, limit: u32) -> Result<Ran, u32> {
        run(&mut self.rec, &mut self.main, &mut self.swap, limit)
    }

    fn read(&self, va: u32, buffer: &mut [u8]) -> Result<(), u32> {
        host_read(&self.rec, &self.main, &self.swap, va, buffer)
    }

    fn write(&mut self, va: u32, bytes: &[u8]) -> Result<(), u32> {
        host_write(&mut self.rec, &mut self.main, &mut self.swap, va, bytes)
    }
}

/// One instruction on page 0 of two pages; the registers afterwards.
fn one(word: u32, set: &[(usize, u32)]) -> ([u32; 32], Ran, Guest) {
    let mut guest = Guest::new(&[3, 3], 2, &[(0, word)]);
    for &(register, value) in set {
        reply(&mut guest.rec, register as u32, value).unwrap();
    }
    let ran = guest.run(1).unwrap();
    (guest.rec.gpr, ran, guest)
}

#[test]
fn words_mean_what_they_should() {
    let (gpr, ran, guest) = one(ADDI, &[]);
    assert_eq!((gpr[1], gpr.iter().sum::<u32>()), (7, 7));
    assert_eq!(ran, Ran { stop: 0, detail: 0, finished: 1, loads: 1, copied: 0 });
    assert_eq!((guest.rec.dpc, guest.rec.pcp), (4, 8));

    let (_, ran, guest) = one(SW, &[(1, 0x0102_0304)]);
    let mut bytes = [0; 6];
    guest.read(63, &mut bytes).unwrap();
    assert_eq!((ran.finished, bytes), (1, [0, 4, 3, 2, 1, 0]));

    let (_, ran, guest) = one(TRAP5, &[]);
    assert_eq!(ran, Ran { stop: 1, detail: 5, finished: 1, loads: 1, copied: 0 });
    assert_eq!((guest.rec.dpc, guest.rec.pcp), (4, 8));

    let (gpr, _, guest) = one(0, &[(3, 9)]);
    assert_eq!((&gpr[..5], guest.rec.dpc, guest.rec.pcp), (&[0, 0, 0, 9, 0][..], 4, 8));
    assert_eq!(gpr.iter().sum::<u32>(), 9);
}

#[test]
fn arithmetic() {
    let r = |function: u32| 1 << 21 | 2 << 16 | 3 << 11 | function;
    assert_eq!(one(r(33), &[(1, 0x7FFF_FFFF), (2, 1)]).0[3], 0x8000_0000);
    assert_eq!(one(r(41), &[(1, 0x8000_0000), (2, 0)]).0[3], 0);
    assert_eq!(one(1 << 21 | 3 << 11 | 31 << 6 | 3, &[(1, 0x8000_0000)]).0[3], 0xFFFF_FFFF);
    // lw 3,8(1) at 0xFFFFFFFC reads address 4.
    let mut guest = Guest::new(&[3], 2, &[(0, 35 << 26 | 1 << 21 | 3 << 16 | 8), (4, 0xCAFE_F00D)]);
    reply(&mut guest.rec, 1, 0xFFFF_FFFC).unwrap();
    guest.run(1).unwrap();
    assert_eq!(guest.rec.gpr[3], 0xCAFE_F00D);
}

#[test]
fn the_table_ends_at_ptl() {
    let lbu = 36 << 26 | 1 << 21 | 3 << 16;
    assert_eq!(one(lbu, &[(1, 8191)]).1, Ran { stop: 0, detail: 0, finished: 1, loads: 2, copied: 0 });
    assert_eq!(one(lbu, &[(1, 8192)]).1, Ran { stop: 2, detail: 8192, finished: 0, loads: 1, copied: 0 });
    let guest = Guest::new(&[3, 3], 2, &[]);
    assert_eq!(guest.read(8191, &mut [0]), Ok(()));
    assert_eq!(guest.read(8191, &mut [0, 0]), Err(3));
    assert_eq!(guest.read(8192, &mut [0]), Err(3));
    assert_eq!(guest.read(8192, &mut []), Ok(()));
    assert_eq!(guest.read(u32::MAX, &mut [0, 0]), Err(3));
    assert_eq!(page_view(&guest.rec, &guest.main, &guest.swap, 2), Err(3));
}

#[test]
fn neither_valid_nor_readable_is_illegal() {
    let mut guest = Guest::new(&[3, 2], 2, &[(0, 35 << 26 | 4096)]);
    let again = Ran { stop: 2, detail: 4096, finished: 0, loads: 0, copied: 0 };
    assert_eq!(guest.run(5), Ok(Ran { loads: 1, ..again }));
    assert_eq!(guest.run(5), Ok(again));
    assert_eq!(guest.rec.b, 1);
}

#[test]
fn four_loads_where_three_would_do() {
    let lw = |va: u32| 35 << 26 | 1 << 16 | va;
    let mut guest = Guest::new(&[1; 3], 2, &[(0, lw(4096)), (4, lw(8192))]);
    assert_eq!(guest.run(2), Ok(Ran { stop: 0, detail: 0, finished: 2, loads: 4, copied: 0 }));
    assert_eq!((&guest.rec.book[..3], guest.rec.hand, guest.rec.b), (&[2, 0, 0][..], 0, 2));
}

#[test]
fn more_frames_can_load_more() {
    for (frames, loads) in [(3, 9), (4, 10)] {
        let mut guest = Guest::new(&[3; 6], frames, &[]);
        let mut sum = 0;
        for page in [1, 2, 3, 4, 1, 2, 5, 1, 2, 3, 4, 5] {
            (guest.rec.dpc, guest.rec.pcp) = (4096 * page, 4096 * page + 4);
            sum += guest.run(1).unwrap().loads;
        }
        assert_eq!(sum, loads);
    }
}

#[test]
fn a_write_across_two_places_moves_with_its_pages() {
    let mut guest = Guest::new(&[3; 4], 2, &[]);
    let fetch = |guest: &mut Guest, page: u32| {
        (guest.rec.dpc, guest.rec.pcp) = (4096 * page, 4096 * page + 4);
        guest.run(1).unwrap();
    };
    let read = |guest: &Guest| {
        let mut bytes = [0; 3];
        guest.read(4095, &mut bytes).unwrap();
        bytes
    };
    fetch(&mut guest, 1);
    guest.write(4095, &[0x37, 0x2C, 0x35]).unwrap();
    assert_eq!((guest.swap[4095], guest.swap[4096], guest.rec.b), (0x37, 0, 1));
    for page in [0, 2, 3] {
        fetch(&mut guest, page);
        assert_eq!(read(&guest), [0x37, 0x2C, 0x35]);
    }
    assert_eq!(&guest.swap[4095..4098], [0x37, 0x2C, 0x35]);
}

#[test]
fn bounds() {
    let mut guest = Guest::new(&[3], 2, &[(0, 2 << 26 | 0x03FF_FFFC)]); // j to itself
    assert_eq!(
        guest.run(1_000_000),
        Ok(Ran { stop: 0, detail: 0, finished: 1_000_000, loads: 1, copied: 0 })
    );
    assert_eq!(guest.run(1_000_001), Err(4));
    assert_eq!(guest.write(0, &[0; 256]), Ok(()));
    assert_eq!(guest.write(0, &[0; 257]), Err(4));
    assert_eq!(guest.read(0, &mut [0; 256]), Ok(()));
    assert_eq!(guest.read(9999, &mut [0; 257]), Err(4));
    assert_eq!(read_image(&image(&[3], 0, 1, &[])), Err(6));
    for (register, answer) in [(0, Err(4)), (1, Ok(())), (31, Ok(())), (32, Err(4))] {
        assert_eq!(reply(&mut guest.rec, register, 1), answer);
    }
    assert_eq!(Record::from_words(&guest.rec.to_words()), guest.rec);
}

#[test]
fn the_program_prints() {
    let file = image(&[3], 0, 0, &[(0, ADDI), (4, SW), (8, TRAP5)]);
    assert_eq!(console(&file), "stop 1 5\nfinished 3\nloads 1\ndpc 12\n");
    let mut labelled = vec![0; 1024];
    labelled.extend(&file);
    assert_eq!(console(&labelled), console(&file));
    labelled.insert(0, 0);
    assert_eq!(console(&labelled), "refused 6\n");
    assert_eq!(console(&vec![0; 17_437]), "refused 7\n");
    assert_eq!(console(&vec![0; 17_436]), "refused 5\n");
    assert_eq!(console(&image(&[3], 0, 5, &[])), "refused 7\n");
    let info = read_image(&file).unwrap();
    assert_eq!((info.ptl, info.start, info.frames, info.rights), (1, 0, 0, &[3][..]));
    assert_eq!(info.pages.as_ptr(), file.as_ptr());
}

/// "A zero in the image's frames field shall mean 4."; with fewer than five main pages, which "was accepted
/// before with a zero", it is refused 7. Each number written out has its own room.
#[test]
fn a_zero_in_frames_means_four() {
    let loaded = |frames, pages| {
        let file = image(&[3], 0, frames, &[]);
        assert_eq!(read_image(&file).unwrap().frames, frames, "as written");
        load(&file, &mut vec![0; PAGE * pages], &mut [0; PAGE]).map(|rec| rec.a)
    };
    for (frames, pages, a) in [(0, 5, 4), (0, 64, 4), (2, 3, 2), (3, 4, 3), (4, 5, 4), (32, 33, 32)] {
        assert_eq!(loaded(frames, pages), Ok(a), "frames {frames}, {pages} main pages");
    }
    for (frames, pages) in [(0, 3), (0, 4), (0, 65), (2, 2), (3, 3), (4, 4), (32, 32)] {
        assert_eq!(loaded(frames, pages), Err(7), "frames {frames}, {pages} main pages");
    }
    let leasts = [0, 2, 3, 4, 32, 1, 33, u32::MAX].map(least_main_pages);
    assert_eq!(leasts, [5, 3, 4, 5, 33, 0, 0, 0]);
}

#[test]
fn an_instruction_acts_from_the_old_values() {
    // jal in the delay slot of a jump links the first target plus 4; jalr 31 goes to the old GPR 31.
    let words = [(0, 2 << 26 | 60), (4, 3 << 26 | 64), (64, 23 << 26 | 31 << 21)];
    let mut guest = Guest::new(&[3], 2, &words);
    guest.run(2).unwrap();
    assert_eq!((guest.rec.dpc, guest.rec.pcp, guest.rec.gpr[31]), (64, 128, 68));
    guest.run(1).unwrap();
    assert_eq!((guest.rec.dpc, guest.rec.pcp, guest.rec.gpr[31]), (128, 68, 132));
}

/// The handler "changes only ppx and v": bits 11–1 of both entries stay, whatever ppx stood there.
#[test]
fn a_load_keeps_the_spare_bits() {
    let mut guest = Guest::new(&[3, 1, 3], 2, &[]);
    for (page, value) in [(0, 0x1FF), (1, 0x155), (2, 0x0AA)] {
        assert_eq!(spare(&guest.rec, &guest.main, page), Some(0), "loading an image writes them 0");
        assert!(set_spare(&guest.rec, &mut guest.main, page, value));
        assert_eq!(spare(&guest.rec, &guest.main, page), Some(value));
    }
    guest.main[10..12].fill(0xF0); // a stale ppx of page 2
    for page in [0, 1, 2] {
        (guest.rec.dpc, guest.rec.pcp) = (4096 * page, 4096 * page + 4);
        assert_eq!(guest.run(1).unwrap().loads, 1);
    }
    assert_eq!(guest.main[..12], [0x0FFEu32, 0x2AAD, 0x1557].map(u32::to_le_bytes).concat());
}

#[test]
fn spare_bits_are_those_of_an_entry() {
    let mut guest = Guest::new(&[3, 3], 2, &[]);
    guest.run(1).unwrap();
    let (rec, main) = (guest.rec, guest.main.clone());
    let at = |pto: u32| Record { pto, ..rec.clone() };
    let tries =
        [(at(0), 2, 1), (at(0), u32::MAX, 1), (at(0), 0, 512), (at(24_573), 0, 1), (at(u32::MAX), 0, 1)];
    for (rec, page, value) in tries {
        assert!(!set_spare(&rec, &mut guest.main, page, value), "pto {} page {page} value {value}", rec.pto);
    }
    assert!(guest.main == main);
    assert!(set_spare(&rec, &mut guest.main, 0, 0) && guest.main == main, "ppx, r, w and v stay");
}

/// sw 2,0(1)
const STORE: u32 = 43 << 26 | 1 << 21 | 2 << 16;

/// "set by a guest store": of the frame that it stores to, with equal bytes too, once it is carried out.
#[test]
fn a_store_marks_its_frame() {
    let mut guest = Guest::new(&[3, 3, 1], 3, &[(0, STORE), (4, STORE), (8, 35 << 26 | 1 << 21)]);
    let step = |guest: &mut Guest, va: u32| {
        reply(&mut guest.rec, 1, va).unwrap();
        let ran = guest.run(1).unwrap();
        (ran.stop, ran.loads, guest.rec.marks)
    };
    assert_eq!(guest.run(0).map(|_| guest.rec.marks), Ok(0));
    assert_eq!(step(&mut guest, 4096), (0, 2, 0b10), "a zero over zeros");
    assert_eq!(step(&mut guest, 8192), (2, 0, 0b10), "no right to write");
    assert_eq!(step(&mut guest, 1), (3, 0, 0b10), "misaligned");
    assert_eq!(step(&mut guest, 60), (0, 0, 0b11));
    assert_eq!(step(&mut guest, 8192), (0, 1, 0b11), "a load from memory");
}

/// "by a host write of at least one byte": of each resident page that gets a byte.
#[test]
fn a_host_write_marks_the_frames_that_get_a_byte() {
    let fresh = || {
        let mut guest = Guest::new(&[3, 3, 1], 3, &[(0, 35 << 26 | 1 << 21 | 4096)]);
        assert_eq!(guest.run(1).map(|ran| (ran.loads, guest.rec.marks)), Ok((2, 0)));
        guest
    };
    for (va, bytes, answer, marks) in [
        (100, &[][..], Ok(()), 0),
        (4095, &[1], Ok(()), 0b01),
        (4095, &[0, 0], Ok(()), 0b11),
        (4096, &[0], Ok(()), 0b10),
        (8191, &[1, 1], Err(3), 0),
        (4000, &[1; 257], Err(4), 0),
    ] {
        let mut guest = fresh();
        assert_eq!((guest.write(va, bytes), guest.rec.marks), (answer, marks), "{} at {va}", bytes.len());
        assert_eq!(guest.read(va, &mut [0]), Ok(()));
        assert_eq!(guest.rec.marks, marks);
    }
    let mut in_swap = Guest::new(&[3], 2, &[]);
    assert_eq!((in_swap.write(0, &[1]), in_swap.rec.marks), (Ok(()), 0));
}

/// "An unmarked victim is not copied", a mark is "cleared by a load", and "pages copied back" are reported.
#[test]
fn only_marked_pages_are_copied_back() {
    let mut guest = Guest::new(&[3; 4], 2, &[]);
    let fetch = |guest: &mut Guest, page: u32| {
        (guest.rec.dpc, guest.rec.pcp) = (4096 * page, 4096 * page + 4);
        let ran = guest.run(1).unwrap();
        (ran.loads, ran.copied, guest.rec.marks)
    };
    assert_eq!([0, 1].map(|page| fetch(&mut guest, page)), [(1, 0, 0); 2]);
    guest.write(4096 + 9, &[7]).unwrap();
    assert_eq!(guest.rec.marks, 0b10);
    assert_eq!(fetch(&mut guest, 2), (1, 0, 0b10), "page 0 leaves");
    assert_eq!(guest.swap[4096 + 9], 0);
    assert_eq!(fetch(&mut guest, 3), (1, 1, 0), "page 1 leaves");
    assert_eq!(guest.swap[4096 + 9], 7);
    assert_eq!([0, 1].map(|page| fetch(&mut guest, page)), [(1, 0, 0); 2]);
    assert_eq!(guest.main[8192 + 9], 7);
}

/// "a book that breaks the new rule is refused 2".
#[test]
fn marks_are_part_of_soundness() {
    let mut guest = Guest::new(&[3; 3], 3, &[(0, 35 << 26 | 1 << 21 | 4096)]);
    guest.run(1).unwrap();
    let mut try_marks = |marks: u32, main: Option<usize>| {
        if let Some(at) = main {
            guest.main[at] ^= 1;
        }
        guest.rec.marks = marks;
        let answer = guest.run(0).err();
        if let Some(at) = main {
            guest.main[at] ^= 1;
        }
        answer
    };
    for marks in 0..4 {
        assert_eq!(try_marks(marks, None), None, "a marked page may equal its swap page");
    }
    for marks in [4, 5, 8, 1 << 31, u32::MAX] {
        assert_eq!(try_marks(marks, None), Some(2), "marks {marks}");
    }
    for at in [0, 1, 2047, 4095] {
        assert_eq!(
            [0, 1, 2, 3].map(|marks| try_marks(marks, Some(4096 + at))),
            [Some(2), None, Some(2), None]
        );
        assert_eq!(
            [0, 1, 2, 3].map(|marks| try_marks(marks, Some(8192 + at))),
            [Some(2), Some(2), None, None]
        );
    }
    assert_eq!(try_marks(0, Some(3 * 4096)), None, "a frame that holds no page");

    // All 32 frames in use: there is no unused mark.
    let (mut main, mut swap) = (vec![0; 33 * PAGE], vec![0; 32 * PAGE]);
    let mut rec = load(&image(&[3; 32], 0, 32, &[]), &mut main, &mut swap).unwrap();
    for page in 0..32 {
        (rec.dpc, rec.pcp) = (4096 * page, 4096 * page + 4);
        run(&mut rec, &mut main, &mut swap, 1).unwrap();
    }
    rec.marks = u32::MAX;
    assert_eq!(run(&mut rec, &mut main, &mut swap, 0), Ok(Ran::default()));
    main[32 * PAGE] = 1;
    assert_eq!(run(&mut rec, &mut main, &mut swap, 0), Ok(Ran::default()));
    rec.marks = u32::MAX >> 1;
    assert_eq!(run(&mut rec, &mut main, &mut swap, 0), Err(2));
}

#[test]
fn refused_calls_change_nothing() {
    let mut guest = Guest::new(&[3, 1], 2, &[]);
    guest.rec.gpr[0] = 1;
    let (rec, main, swap) = (guest.rec.clone(), guest.main.clone(), guest.swap.clone());
    assert_eq!(
        (guest.run(1_000_001), guest.write(0, &[1]), guest.read(0, &mut [1])),
        (Err(2), Err(2), Err(2))
    );
    guest.rec.gpr[0] = 0;
    assert_eq!(guest.write(4095, &[1, 1]), Err(3));
    guest.rec.gpr[0] = 1;
    assert_eq!((guest.rec, &guest.main, &guest.swap), (rec, &main, &swap));
    let file = image(&[3, 1], 0, 6, &[]);
    assert_eq!(load(&file, &mut guest.main, &mut guest.swap), Err(7)); // six main pages, seven needed
    assert_eq!((guest.main, guest.swap), (main, swap));
}
