//! Worked values of document 01 through the plain engine's wrapper, and beside the paged machine.
#![cfg(feature = "plain")]
use brenwythal::plain::{self, Plain, Ran, DPC, GPR, NEXT, PAGE, PTL, RECORD};
use brenwythal::{image, Image, Machine, Refusal, Stop};

const DEPOT: &[u8] = include_bytes!("../../../examples/depot.img");
const HOP: &[u8] = include_bytes!("../../../examples/hop.img");

/// A console image of these pages, each with its rights and its first words.
fn console(pages: &[(u8, &[u32])], start: u32, frames: u32) -> Vec<u8> {
    let ptl = pages.len() as u32;
    let mut file = Vec::new();
    for (_, words) in pages {
        let end = file.len() + PAGE;
        file.extend(words.iter().flat_map(|word| word.to_le_bytes()));
        file.resize(end, 0);
    }
    file.extend(pages.iter().map(|(rights, _)| rights));
    let trailer = [24 + ptl, 24 + 4097 * ptl, ptl, start, frames, 1];
    file.extend(trailer.iter().flat_map(|number| number.to_le_bytes()));
    file
}

/// "Image of one page, rights 3, start 0, frames 0, the three words above at 0, 4, 8."
fn one_page() -> Vec<u8> {
    console(&[(3, &[0x2401_0007, 0xAC01_0040, 0xF800_0005])], 0, 0)
}

#[test]
fn one_page_image() {
    let file = one_page();
    assert_eq!(plain::image(&file), Ok(Image { ptl: 1, start: 0, frames: 0 }));
    let mut plain = Plain::load(&file).unwrap();
    assert_eq!((plain.memory(), plain.rights()), (&file[..PAGE], &[3][..]));
    assert_eq!(plain.run(1000), Ok(Ran { stop: Stop::Trap(5), finished: 3 }));
    assert_eq!(plain.dpc(), 12);
    assert_eq!(plain.registers()[..3], [0, 7, 0]);
    assert_eq!(plain.registers().len(), 32);
    let mut word = [0xEE; 4];
    plain.read(64, &mut word).unwrap();
    assert_eq!(word, [7, 0, 0, 0]);
    assert_eq!(plain.view(0).unwrap()[..], plain.memory()[..]);
    let mut record = [0; RECORD];
    (record[PTL], record[GPR + 1], record[DPC], record[NEXT]) = (1, 7, 12, 16);
    assert_eq!(plain.record(), &record);
}

/// "From the same image and the same run, host and reply calls it must give the same".
#[test]
fn the_same_as_the_paged_machine() {
    for file in [DEPOT, HOP] {
        let mut paged = Machine::load(file, image(file).unwrap().least_main_pages()).unwrap();
        let mut plain = Plain::load(file).unwrap();
        for turn in 0..30 {
            let told = paged.run(7 * turn).map(|ran| Ran { stop: ran.stop, finished: ran.finished });
            assert_eq!(plain.run(7 * turn), told);
            assert_eq!(plain.write(4095, b"7,5"), paged.write(4095, b"7,5"));
            assert_eq!(plain.write(PAGE as u32 * turn, b"x"), paged.write(PAGE as u32 * turn, b"x"));
            assert_eq!(plain.reply(turn + 5, 7), paged.reply(turn + 5, 7));
            assert_eq!((plain.registers(), plain.dpc()), (paged.registers(), paged.dpc()));
            for page in 0..6 {
                assert_eq!(plain.view(page), paged.view(page));
                assert!(paged.set_spare(page, 511) == (page < plain.record()[PTL]));
            }
        }
    }
}

#[test]
fn stops() {
    let stop_of = |word: u32, start: u32| {
        let mut plain = Plain::load(&console(&[(3, &[word])], start, 0)).unwrap();
        let before = plain.clone();
        let ran = plain.run(1).unwrap();
        assert!(plain == before && ran.finished == 0);
        ran.stop
    };
    assert_eq!(stop_of(0x8C01_1000, 0), Stop::IllegalMemory(4096));
    assert_eq!(stop_of(0, 8192), Stop::IllegalMemory(8192));
    assert_eq!(stop_of(0x8C01_0002, 0), Stop::Misaligned(2));
    assert_eq!(stop_of(0xFFFF_FFFF, 0), Stop::IllegalInstruction(0xFFFF_FFFF));
}

#[test]
fn refusals() {
    let file = one_page();
    assert_eq!(
        (plain::image(&[]), Plain::load(&file[..23]).err()),
        (Err(Refusal::Edition), Some(Refusal::Edition))
    );
    assert_eq!(plain::image(&console(&[(3, &[])], 0, 1)), Err(Refusal::Format));
    assert_eq!(Plain::load(&console(&[(4, &[])], 0, 0)).err(), Some(Refusal::Format));

    let mut plain = Plain::load(&file).unwrap();
    let fresh = plain.clone();
    assert_eq!(plain.run(0), Ok(Ran { stop: Stop::Limit, finished: 0 }));
    assert_eq!(plain.run(1_000_001), Err(Refusal::TooMuch));
    assert_eq!(plain.read(0, &mut [0; 257]), Err(Refusal::TooMuch));
    assert_eq!(plain.write(0, &[0; 257]), Err(Refusal::TooMuch));
    assert_eq!((plain.reply(0, 1), plain.reply(32, 1)), (Err(Refusal::TooMuch), Err(Refusal::TooMuch)));
    assert_eq!(plain.write(4000, &[0; 97]), Err(Refusal::Rights));
    assert_eq!(plain.read(u32::MAX, &mut [0; 2]), Err(Refusal::Rights));
    assert_eq!((plain.view(1), plain.view(u32::MAX)), (Err(Refusal::Rights), Err(Refusal::Rights)));
    assert_eq!((plain.read(u32::MAX, &mut []), plain.write(u32::MAX, &[])), (Ok(()), Ok(())));
    assert!(plain == fresh);
    assert_eq!(plain.write(4000, &[1; 96]), Ok(()));
    assert_eq!(plain.run(1_000_000).unwrap().stop, Stop::Trap(5));
}

#[test]
fn parts_that_do_not_fit() {
    let (record, memory, rights) = Plain::load(&one_page()).unwrap().into_parts();
    let mut empty = Plain::from_parts(record, Vec::new(), Vec::new());
    assert_eq!((empty.run(1), empty.view(0)), (Err(Refusal::Bound), Err(Refusal::Bound)));
    assert_eq!((empty.reply(31, 9), empty.registers()[31]), (Ok(()), 9));
    let mut crooked = record;
    crooked[GPR] = 1;
    let high = vec![4];
    for (record, rights) in [(crooked, &rights), (record, &high)] {
        let mut unsound = Plain::from_parts(record, memory.clone(), rights.clone());
        assert_eq!(unsound.run(1), Err(Refusal::Unsound));
        assert_eq!(unsound.read(0, &mut []), Err(Refusal::Unsound));
        assert_eq!(unsound.write(0, &[1]), Err(Refusal::Unsound));
        assert!(unsound == Plain::from_parts(record, memory.clone(), rights.clone()));
    }
}
