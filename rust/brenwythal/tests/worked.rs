//! Worked values of document 01, through the wrapper.
use brenwythal::{image, Image, Machine, Ran, Refusal, Stop, FRAMES, GPR, HELD, MARKS, PAGE, PTL, PTO, USED};

const DEPOT: &[u8] = include_bytes!("../../../examples/depot.img");
const HOP: &[u8] = include_bytes!("../../../examples/hop.img");
const STAY: &[u8] = include_bytes!("../../../examples/stay.img");

/// A console image of these pages, each with its rights and its first words.
fn console(pages: &[(u8, &[u32])], start: u32, frames: u32) -> Vec<u8> {
    let ptl = pages.len() as u32;
    let mut file = Vec::new();
    for (_, words) in pages {
        let end = file.len() + PAGE;
        file.extend(words.iter().flat_map(|word| word.to_le_bytes()));
        file.resize(end, 0);
    }
    file.extend(pages.iter().map(|(rights, _)| rights));
    let trailer = [24 + ptl, 24 + 4097 * ptl, ptl, start, frames, 1];
    file.extend(trailer.iter().flat_map(|number| number.to_le_bytes()));
    file
}

/// "Image of one page, rights 3, start 0, frames 0, the three words above at 0, 4, 8."
fn one_page() -> Vec<u8> {
    console(&[(3, &[0x2401_0007, 0xAC01_0040, 0xF800_0005])], 0, 0)
}

/// Whether the guest's page is in a frame; loading puts the table at 0.
fn is_resident(machine: &Machine, page: usize) -> bool {
    machine.main()[4 * page] & 1 == 1
}

#[test]
fn one_page_image() {
    let file = one_page();
    let about = image(&file).unwrap();
    assert_eq!(about, Image { ptl: 1, start: 0, frames: 0 });
    assert_eq!(about.least_main_pages(), 5);
    let mut machine = Machine::load(&file, 5).unwrap();
    assert_eq!((machine.main().len(), machine.swap().len()), (5 * PAGE, PAGE));
    assert_eq!(machine.run(1000), Ok(Ran { stop: Stop::Trap(5), finished: 3, loads: 1, copied: 0 }));
    assert_eq!(machine.dpc(), 12);
    assert_eq!(machine.registers()[..3], [0, 7, 0]);
    let mut word = [0xEE; 4];
    machine.read(64, &mut word).unwrap();
    assert_eq!(word, [7, 0, 0, 0]);
    assert_eq!(machine.view(0).unwrap()[60..72], [0, 0, 0, 0, 7, 0, 0, 0, 0, 0, 0, 0]);
    assert_eq!(machine.swap(), &file[..PAGE], "the page has changed in its frame alone");
}

/// "Host write of 37 2C 35 (hex) at 4095, page 0 in swap, page 1 resident: the same bytes are read after both
/// have moved."
#[test]
fn seven_comma_five() {
    let mut machine = Machine::load(DEPOT, 3).unwrap();
    assert_eq!(machine.run(1000).unwrap().stop, Stop::Trap(1));
    assert_eq!((is_resident(&machine, 0), is_resident(&machine, 1)), (false, true));
    machine.write(4095, b"7,5").unwrap();
    let mut field = [0; 3];
    machine.read(4095, &mut field).unwrap();
    assert_eq!(field, [0x37, 0x2C, 0x35]);

    // Both pages are loaded again, byte by byte, into the registers 1 to 3.
    let ran = machine.run(1000).unwrap();
    assert_eq!(ran.stop, Stop::Trap(2));
    assert_eq!(machine.registers()[1..4], [0x37, 0x2C, 0x35]);
    field = [0; 3];
    machine.read(4095, &mut field).unwrap();
    assert_eq!(field, [0x37, 0x2C, 0x35]);
    assert_eq!(machine.view(0).unwrap()[4095], 0x37);
    assert_eq!(machine.view(1).unwrap()[..2], [0x2C, 0x35]);
}

/// "Fresh, a = 2, limit 2, code on page 0, all readable, lw from page 1, then lw from page 2."
#[test]
fn four_loads() {
    let lw = |from: u32| 35 << 26 | 1 << 16 | from;
    let file = console(&[(3, &[lw(4096), lw(8192)]), (1, &[]), (1, &[])], 0, 2);
    let mut machine = Machine::load(&file, 3).unwrap();
    assert_eq!(machine.run(2), Ok(Ran { stop: Stop::Limit, finished: 2, loads: 4, copied: 0 }));
    assert_eq!(machine.record()[USED..HELD + 2], [2, 0, 2, 0], "b, hand, B");
}

/// "A zero in the image's frames field shall mean 4."; each number written out has its own room, and one page
/// less than the wrapper says is refused.
#[test]
fn least_main_pages() {
    for frames in (0..=32).filter(|&frames| frames != 1) {
        let file = console(&[(3, &[])], 0, frames);
        let about = image(&file).unwrap();
        let a = if frames == 0 { 4 } else { frames };
        assert_eq!((about.frames, about.least_main_pages()), (frames, 1 + a as usize));
        let machine = Machine::load(&file, about.least_main_pages()).unwrap();
        assert_eq!(machine.record()[FRAMES], a);
        let less = Machine::load(&file, about.least_main_pages() - 1);
        assert_eq!(less.err(), Some(Refusal::Room), "frames {frames}");
    }
    for frames in [1, 33, u32::MAX] {
        assert_eq!(image(&console(&[(3, &[])], 0, frames)), Err(Refusal::Format));
        assert_eq!(Image { ptl: 1, start: 0, frames }.least_main_pages(), 0);
    }
}

/// The same form with two frames and with a zero: nearly every hop loads a page, or each page comes once.
#[test]
fn a_form_over_four_pages() {
    let loads = |file, pages| Machine::load(file, pages).unwrap().run(1000).unwrap().loads;
    assert_eq!((loads(HOP, 5), loads(STAY, 5)), (206, 4));
}

#[test]
fn stops() {
    let stop_of = |word: u32, start: u32| {
        let mut machine = Machine::load(&console(&[(3, &[word])], start, 0), 5).unwrap();
        let before = *machine.record();
        let stop = machine.run(1).unwrap().stop;
        assert_eq!(machine.record()[GPR..], before[GPR..]);
        (stop, stop.number(), stop.detail())
    };
    assert_eq!(stop_of(0x8C01_1000, 0), (Stop::IllegalMemory(4096), 2, 4096));
    assert_eq!(stop_of(0, 8192), (Stop::IllegalMemory(8192), 2, 8192));
    assert_eq!(stop_of(0x8C01_0002, 0), (Stop::Misaligned(2), 3, 2));
    assert_eq!(stop_of(0xFFFF_FFFF, 0), (Stop::IllegalInstruction(0xFFFF_FFFF), 4, 0xFFFF_FFFF));
}

#[test]
fn refusals() {
    let file = one_page();
    assert_eq!(image(&[]), Err(Refusal::Edition));
    assert_eq!(Machine::load(&file[..23], 5).err(), Some(Refusal::Edition));
    assert_eq!(image(&console(&[(3, &[])], 0, 1)), Err(Refusal::Format));
    assert_eq!(Machine::load(&console(&[(4, &[])], 0, 0), 5).err(), Some(Refusal::Format));
    for pages in [0, 2, 3, 4, 65, usize::MAX] {
        assert_eq!(Machine::load(&file, pages).err(), Some(Refusal::Room));
    }
    assert!(Machine::load(&file, 5).is_ok() && Machine::load(&file, 64).is_ok());

    let mut machine = Machine::load(&file, 5).unwrap();
    assert_eq!(machine.run(0), Ok(Ran { stop: Stop::Limit, finished: 0, loads: 0, copied: 0 }));
    let fresh = machine.clone();
    assert_eq!(machine.run(1_000_001), Err(Refusal::TooMuch));
    assert_eq!(machine.read(0, &mut [0; 257]), Err(Refusal::TooMuch));
    assert_eq!(machine.write(0, &[0; 257]), Err(Refusal::TooMuch));
    assert_eq!(machine.reply(0, 1), Err(Refusal::TooMuch));
    assert_eq!(machine.reply(32, 1), Err(Refusal::TooMuch));
    assert_eq!(machine.write(4000, &[0; 97]), Err(Refusal::Rights));
    assert_eq!(machine.read(u32::MAX, &mut [0]), Err(Refusal::Rights));
    assert_eq!(machine.view(1), Err(Refusal::Rights));
    assert_eq!(machine.read(u32::MAX, &mut []), Ok(()));
    assert_eq!(machine.write(u32::MAX, &[]), Ok(()));
    assert!(machine == fresh);
    assert_eq!(machine.write(4000, &[1; 96]), Ok(()));
    assert_eq!(machine.run(1_000_000).unwrap().stop, Stop::Trap(5));
}

/// "bits 11–3 stay as the host put them", and a load finds its pages by the other bits.
#[test]
fn spare_bits_survive_page_loads() {
    let mut machine = Machine::load(HOP, 3).unwrap();
    let mut plain = machine.clone();
    let forms = [(0, 511), (1, 417), (2, 1), (3, 0x0F0)];
    for (page, form) in forms {
        assert_eq!(machine.spare(page), Some(0));
        assert!(machine.set_spare(page, form));
    }
    for _ in 0..30 {
        assert_eq!(machine.run(7), plain.run(7));
        assert!(forms.iter().all(|&(page, form)| machine.spare(page) == Some(form)));
    }
    assert!(machine != plain);
    assert!((0..4).all(|page| machine.set_spare(page, 0)));
    assert!(machine == plain, "nothing else differs");
}

#[test]
fn spare_bits_of_no_entry() {
    let fresh = Machine::load(HOP, 3).unwrap();
    let mut machine = fresh.clone();
    assert!(!machine.set_spare(0, 512) && !machine.set_spare(0, u16::MAX));
    for page in [4, 1023, 1024, 0x4000_0000, u32::MAX] {
        assert_eq!((machine.spare(page), machine.set_spare(page, 1)), (None, false));
    }
    assert!(machine == fresh);

    // A damaged record: entries that are not wholly in main memory, and a table as large as can be said.
    let (record, main, swap) = fresh.into_parts();
    for (pto, ptl, page) in
        [(3 * PAGE as u32 - 3, 1, 0), (u32::MAX, u32::MAX, u32::MAX - 1), (0, u32::MAX, 3072)]
    {
        let mut record = record;
        (record[PTO], record[PTL]) = (pto, ptl);
        let mut damaged = Machine::from_parts(record, main.clone(), swap.clone());
        assert_eq!((damaged.spare(page), damaged.set_spare(page, 1)), (None, false));
        assert!(damaged == Machine::from_parts(record, main.clone(), swap.clone()));
    }
    assert_eq!(Machine::from_parts(record, Vec::new(), swap).spare(0), None);
}

/// "An unmarked victim is not copied", and a marked one is.
#[test]
fn marks() {
    let lw = |from: u32| 35 << 26 | 1 << 16 | from;
    let code = [lw(4096), lw(8192), lw(4096), lw(8192)];
    let mut machine = Machine::load(&console(&[(3, &code), (3, &[]), (3, &[])], 0, 2), 3).unwrap();
    assert_eq!((machine.run(1).unwrap().copied, machine.marks()), (0, 0));
    machine.write(4096, b"").unwrap();
    assert_eq!(machine.marks(), 0);
    machine.write(4096, &[0]).unwrap();
    assert_eq!(machine.marks(), 0b10, "page 1 is in frame 1");

    // Page 2 takes the frame of page 0, which then takes that of page 1.
    assert_eq!(machine.run(1), Ok(Ran { stop: Stop::Limit, finished: 1, loads: 2, copied: 1 }));
    assert_eq!(machine.marks(), 0);
    machine.write(8192, &[1, 2, 3]).unwrap();
    assert_eq!((machine.marks(), machine.swap()[8192]), (0b01, 0));
    assert_eq!(machine.run(1), Ok(Ran { stop: Stop::Limit, finished: 1, loads: 1, copied: 1 }));
    assert_eq!(machine.swap()[8192..8196], [1, 2, 3, 0]);
}

/// A change by hand under a page without a mark is refused 2, wherever the byte is.
#[test]
fn changes_by_hand_need_a_mark() {
    let mut machine = Machine::load(&one_page(), 5).unwrap();
    machine.run(1).unwrap();
    let (record, main, swap) = machine.into_parts();
    let mut marked = record;
    marked[MARKS] = 1;
    for at in [0, 2000, PAGE - 1] {
        let (mut other_main, mut other_swap) = (main.clone(), swap.clone());
        other_main[PAGE + at] ^= 0x40;
        other_swap[at] ^= 0x40;
        for (main, swap) in [(&other_main, &swap), (&main, &other_swap)] {
            let with = |record| Machine::from_parts(record, main.clone(), swap.clone());
            assert_eq!(with(record).run(0), Err(Refusal::Unsound));
            assert_eq!(with(record).view(0), Err(Refusal::Unsound));
            assert_eq!(with(marked).view(0).unwrap()[..], main[PAGE..2 * PAGE]);
        }
        assert!(Machine::from_parts(record, other_main, other_swap).run(0).is_ok(), "both alike");
    }
    for marks in [0b10, 0b11, 1 << 31] {
        let mut record = record;
        record[MARKS] = marks;
        let mut machine = Machine::from_parts(record, main.clone(), swap.clone());
        assert_eq!(machine.run(0), Err(Refusal::Unsound), "the marks of unused frames");
    }
}

#[test]
fn parts_that_do_not_fit() {
    let (record, main, swap) = Machine::load(&one_page(), 5).unwrap().into_parts();
    let mut empty = Machine::from_parts(record, Vec::new(), Vec::new());
    assert_eq!(empty.run(1), Err(Refusal::Bound));
    assert_eq!(empty.read(0, &mut []), Err(Refusal::Bound));
    assert_eq!(empty.view(0), Err(Refusal::Bound));
    assert_eq!(empty.reply(31, 9), Ok(()));
    assert_eq!(empty.registers()[31], 9);
    let mut crooked = record;
    crooked[GPR] = 1;
    let mut unsound = Machine::from_parts(crooked, main.clone(), swap.clone());
    assert_eq!(unsound.run(1), Err(Refusal::Unsound));
    assert_eq!(unsound.write(0, &[1]), Err(Refusal::Unsound));
    assert!(unsound == Machine::from_parts(crooked, main, swap));
}

#[test]
fn refusals_say_their_number() {
    assert_eq!(
        Refusal::Unsound.to_string(),
        "refused 2: registers, frame book, page table and pages do not agree, or a rights byte is above 3"
    );
    let all = [
        Refusal::Bound,
        Refusal::Unsound,
        Refusal::Rights,
        Refusal::TooMuch,
        Refusal::Edition,
        Refusal::Format,
        Refusal::Room,
    ];
    assert!(all.iter().zip(1..).all(|(refusal, number)| refusal.number() == number));
}
