//! Console images and the console program.
use crate::{refusal, run, word_at, Record, PAGE};

const TRAILER: usize = 24;
const MAX_LABEL: usize = 1024;

/// An image's numbers as written, and its sections as parts of the file's own bytes.
#[derive(Clone, Copy, Debug, PartialEq, Eq)]
pub struct ImageInfo<'i> {
    pub ptl: u32,
    pub start: u32,
    pub frames: u32,
    pub pages: &'i [u8],
    pub rights: &'i [u8],
}

/// "Frames is 2 to 32, or 0".
fn is_frames(frames: u32) -> bool {
    frames == 0 || (2..=32).contains(&frames)
}

/// "A zero in the image's frames field shall mean 4."
fn meant(frames: u32) -> u32 {
    if frames == 0 {
        4
    } else {
        frames
    }
}

/// The fewest pages of main memory for an image with these frames as written, "at least 1+frames"; 0 for
/// frames that no image has.
pub fn least_main_pages(frames: u32) -> u32 {
    if is_frames(frames) {
        1 + meant(frames)
    } else {
        0
    }
}

/// Reads a console image, from its end.
pub fn read_image(image: &[u8]) -> Result<ImageInfo<'_>, u32> {
    let len = image.len();
    if len < TRAILER {
        return Err(refusal::NO_IMAGE);
    }
    let [to_rights, to_pages, ptl, start, frames, edition] =
        std::array::from_fn(|i| word_at(image, len - TRAILER + 4 * i));
    if edition != 1 {
        return Err(refusal::NO_IMAGE);
    }
    if !(1..=1024).contains(&ptl) || start % 4 != 0 || !is_frames(frames) {
        return Err(refusal::TRAILER);
    }
    let rights_back = TRAILER + ptl as usize;
    let pages_back = rights_back + PAGE * ptl as usize;
    if (to_rights as usize, to_pages as usize) != (rights_back, pages_back) {
        return Err(refusal::TRAILER);
    }
    if pages_back > len || len - pages_back > MAX_LABEL {
        return Err(refusal::TRAILER);
    }
    let pages = &image[len - pages_back..len - rights_back];
    let rights = &image[len - rights_back..len - TRAILER];
    if rights.iter().any(|&byte| byte > 3) {
        return Err(refusal::TRAILER);
    }
    Ok(ImageInfo { ptl, start, frames, pages, rights })
}

/// Makes a fresh machine of an image in the lent memories.
pub fn load(image: &[u8], main: &mut [u8], swap: &mut [u8]) -> Result<Record, u32> {
    let info = read_image(image)?;
    let frames = meant(info.frames);
    let p = main.len() / PAGE;
    let main_fits = main.len() == PAGE * p && (3..=64).contains(&p) && p > frames as usize;
    if !main_fits || swap.len() != info.pages.len() {
        return Err(refusal::ROOM);
    }
    swap.copy_from_slice(info.pages);
    main.fill(0);
    for (entry, &byte) in main.chunks_exact_mut(4).zip(info.rights) {
        entry[0] = (byte & 1) << 2 | byte & 2;
    }
    Ok(Record {
        p: p as u32,
        a: frames,
        abase: 1,
        ptl: info.ptl,
        dpc: info.start,
        pcp: info.start.wrapping_add(4),
        ..Record::default()
    })
}

/// What the console program prints for its standard input.
pub fn console(input: &[u8]) -> String {
    match run_console(input) {
        Ok(text) => text,
        Err(number) => format!("refused {number}\n"),
    }
}

fn run_console(input: &[u8]) -> Result<String, u32> {
    if input.len() > 17_436 {
        return Err(refusal::ROOM);
    }
    let info = read_image(input)?;
    if info.ptl > 4 {
        return Err(refusal::ROOM);
    }
    let mut main = vec![0; 5 * PAGE];
    let mut swap = vec![0; info.pages.len()];
    let mut rec = load(input, &mut main, &mut swap)?;
    let ran = run(&mut rec, &mut main, &mut swap, 1000)?;
    Ok(format!(
        "stop {} {}\nfinished {}\nloads {}\ndpc {}\n",
        ran.stop, ran.detail, ran.finished, ran.loads, rec.dpc
    ))
}
