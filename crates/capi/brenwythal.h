/* The calls of the paged console machine, for hosts in C and C++. Link with target/native/libbrenwythal.a,
 * which `tools/native-staticlib capi` writes. docs/MANUAL.md has all of it at length.
 *
 * Nothing is allocated, kept or freed: everything lives in memory that the host owns and lends for the length
 * of one call. One machine is a record of BRENWYTHAL_RECORD words, its main memory and its swap; the host
 * keeps these three together and lends them to each call. Between calls it may copy or store them. What it
 * changes in them by hand, the next call checks before it acts. Different machines may be used from different
 * threads at the same time, one machine by one thread at a time.
 *
 * Each frame has a mark, which is set if its page may have changed since it was loaded. A guest's store sets
 * the mark of the frame that it stores to, brenwythal_write that of each frame that gets a byte, also where
 * the bytes stay the same; a page load clears the mark of the frame that it fills. A page without a mark is
 * not copied back to swap when it leaves. So such a page must equal its swap page in all 4096 bytes, and
 * frames that hold no page have no mark: else the machine is refused 2. A host that changes a frame, or the
 * swap page of the page in it, by hand sets the frame's mark with it. Under a mark the two may differ; the
 * guest's bytes are the frame's.
 *
 * The page table's entry of the guest's page x is the word at pto + 4x of main memory, low byte first. Its
 * spare bits, 11 to 3, are the host's own: no call goes by them, and only brenwythal_load changes them, to 0.
 *
 * The makers' calls, brenwythal_assemble and brenwythal_list, turn a text of one instruction a line into words
 * and back; they know no machine.
 *
 * A slice is lent as a pointer and then a length, which counts elements: bytes of a uint8_t slice, words of a
 * uint32_t slice, sizes of a size_t slice. The host promises of each pointer what any C function would ask:
 *   - it points to as many elements as the length says, and is aligned for them;
 *   - it is never NULL, not even with length 0;
 *   - a slice that is not const overlaps no other slice of the same call.
 * There is no other condition: any numbers, lengths, words and bytes may be handed in, and what does not fit
 * is refused.
 *
 * Every call returns 0, or the number of a refusal; brenwythal_least_main_pages alone, which is lent nothing
 * and refuses nothing, returns what it is asked for. The first refusal that applies is given, in the order 1,
 * 2, 4, 3, for images 1, 5, 6, 7, for words to list 1, 7; for a text 1, then 8 to 10 of the first bad line,
 * then 7. A refused call changes nothing that is lent to it, with two exceptions: the words of an answer
 * become 0 (but the line and the column of a bad line), and the record that brenwythal_load is to fill becomes
 * all zeros. (Where a record, an answer or a view's buffer has the wrong length, not even these change.)
 *
 * A whole host. It makes an image of one page that may be read and written, with a zero in frames, for which
 * five main pages are enough, puts three instructions there (addi, sw, trap 5), runs it, and
 * prints `stop 1 5, finished 3, loads 1`:
 *
 *     #include <stdio.h>
 *     #include "brenwythal.h"
 *
 *     static uint8_t image[4096 + 1 + 24], main_memory[5 * 4096], swap[4096];
 *
 *     static void put(size_t at, uint32_t word) {
 *         for (int i = 0; i < 4; i++) image[at + i] = (uint8_t)(word >> (8 * i));
 *     }
 *
 *     int main(void) {
 *         const uint32_t code[3] = {0x24010007, 0xAC010040, 0xF8000005};
 *         const uint32_t trailer[6] = {25, 4121, 1, 0, 0, 1};
 *         uint32_t record[BRENWYTHAL_RECORD], answer[BRENWYTHAL_RUN_ANSWER];
 *         for (size_t i = 0; i < 3; i++) put(4 * i, code[i]);
 *         image[4096] = 3;
 *         for (size_t i = 0; i < 6; i++) put(4097 + 4 * i, trailer[i]);
 *         uint32_t refused = brenwythal_load(image, sizeof image, main_memory, sizeof main_memory,
 *                                            swap, sizeof swap, record, BRENWYTHAL_RECORD);
 *         if (refused == 0)
 *             refused = brenwythal_run(record, BRENWYTHAL_RECORD, main_memory, sizeof main_memory,
 *                                      swap, sizeof swap, 1000, answer, BRENWYTHAL_RUN_ANSWER);
 *         if (refused != 0) return (int)refused;
 *         printf("stop %u %u, finished %u, loads %u\n", (unsigned)answer[BRENWYTHAL_STOP],
 *                (unsigned)answer[BRENWYTHAL_DETAIL], (unsigned)answer[BRENWYTHAL_FINISHED],
 *                (unsigned)answer[BRENWYTHAL_LOADS]);
 *         return 0;
 *     }
 */
#ifndef BRENWYTHAL_H
#define BRENWYTHAL_H

#include <stddef.h>
#include <stdint.h>

#ifdef __cplusplus
extern "C" {
#endif

/* The length of a page in bytes. */
#define BRENWYTHAL_PAGE 4096

/* The numbers of the refusals, and when each is given. */
enum {
    BRENWYTHAL_REFUSAL_BOUND = 1,    /* a shape number or a memory's length breaks its bound; or a record, an
                                        answer or a view's buffer has the wrong length; or bytes to list are
                                        no whole number of words */
    BRENWYTHAL_REFUSAL_UNSOUND = 2,  /* the machine's registers, frame book, page table and pages do not
                                        agree */
    BRENWYTHAL_REFUSAL_RIGHTS = 3,   /* a page is outside the page table, or lacks the right */
    BRENWYTHAL_REFUSAL_TOO_MUCH = 4, /* the run or the transfer is too long; the register is not 1 to 31 */
    BRENWYTHAL_REFUSAL_EDITION = 5,  /* the image is under 24 bytes, or its edition is not 1 */
    BRENWYTHAL_REFUSAL_FORMAT = 6,   /* a number of the image's trailer, a rights byte or the label's length
                                        breaks its rule */
    BRENWYTHAL_REFUSAL_ROOM = 7,     /* the lent main memory or swap does not fit the image; the lent output is
                                        shorter than the result */
    BRENWYTHAL_REFUSAL_MNEMONIC = 8, /* a line of a text begins with no mnemonic and no number */
    BRENWYTHAL_REFUSAL_OPERAND = 9,  /* a byte that cannot stand there, or a ninth parenthesis is opened */
    BRENWYTHAL_REFUSAL_OVERFLOW = 10 /* a value does not fit its field, or 32 bits signed */
};

/* The length of a record in words, and where its parts begin: P, a, abase, ptl, pto, sbase, b, hand,
 * B[0..31], GPR 0 to 31, DPC, PC', marks. */
#define BRENWYTHAL_RECORD 75
enum {
    BRENWYTHAL_PAGES = 0,  /* P, the pages of main memory: 3 to 64 */
    BRENWYTHAL_FRAMES = 1, /* a, the frames among them: 2 to 32 */
    BRENWYTHAL_ABASE = 2,  /* the main page of the first frame */
    BRENWYTHAL_PTL = 3,    /* the pages of the guest: 1 to 1024 */
    BRENWYTHAL_PTO = 4,    /* where the page table begins in main memory */
    BRENWYTHAL_SBASE = 5,  /* the swap page of the guest's page 0 */
    BRENWYTHAL_USED = 6,   /* b, the frames that hold a page */
    BRENWYTHAL_HAND = 7,   /* the frame that is emptied next */
    BRENWYTHAL_HELD = 8,   /* B[0..31], the page in each frame */
    BRENWYTHAL_GPR = 40,   /* the registers 0 to 31 */
    BRENWYTHAL_DPC = 72,   /* the address of the next instruction */
    BRENWYTHAL_NEXT = 73,  /* PC', the address of the one after it */
    BRENWYTHAL_MARKS = 74  /* the marks of the frames: bit i for frame i, 0 from b on */
};

/* The words of the answer of brenwythal_run. */
#define BRENWYTHAL_RUN_ANSWER 5
enum {
    BRENWYTHAL_STOP = 0,     /* why the run ended, by the numbers below */
    BRENWYTHAL_DETAIL = 1,   /* what belongs to it */
    BRENWYTHAL_FINISHED = 2, /* instructions finished */
    BRENWYTHAL_LOADS = 3,    /* pages loaded from swap */
    BRENWYTHAL_COPIED = 4    /* pages copied back to swap: the loads for which a page with a mark left */
};

/* Why a run ended, and its detail. After 2 to 4 the registers are as before that instruction. */
enum {
    BRENWYTHAL_STOP_LIMIT = 0,              /* the limit is used up; 0 */
    BRENWYTHAL_STOP_TRAP = 1,               /* a trap, which is finished; its number */
    BRENWYTHAL_STOP_ILLEGAL_MEMORY = 2,     /* the virtual address */
    BRENWYTHAL_STOP_MISALIGNED = 3,         /* the virtual address */
    BRENWYTHAL_STOP_ILLEGAL_INSTRUCTION = 4 /* its word */
};

/* The words of the answer of brenwythal_image. */
#define BRENWYTHAL_IMAGE_ANSWER 3
enum {
    BRENWYTHAL_IMAGE_PTL = 0,   /* pages: swap is to be 4096 times as many bytes */
    BRENWYTHAL_IMAGE_START = 1, /* the address of the first instruction */
    BRENWYTHAL_IMAGE_FRAMES = 2 /* frames as written: brenwythal_least_main_pages says what they ask for */
};

/* The sizes of the answer of brenwythal_assemble. */
#define BRENWYTHAL_ASSEMBLE_ANSWER 3
enum {
    BRENWYTHAL_ASSEMBLE_LENGTH = 0, /* the bytes written: four for each line */
    BRENWYTHAL_ASSEMBLE_LINE = 1,   /* the bad line, from 1 on; 0 where there is none */
    BRENWYTHAL_ASSEMBLE_COLUMN = 2  /* its byte that is refused, from 1 on; 0 where there is none */
};

/* The sizes of the answer of brenwythal_list. */
#define BRENWYTHAL_LIST_ANSWER 1
enum {
    BRENWYTHAL_LIST_LENGTH = 0 /* the bytes written: at most 18 for each word */
};

/* Reads a console image and fills an answer of BRENWYTHAL_IMAGE_ANSWER words, from which the host finds the
 * lengths of the memories that loading takes: swap has 4096 times BRENWYTHAL_IMAGE_PTL bytes, main memory as
 * many pages as the next call says, at least. Refusals 1 (the answer's length), 5 and 6. */
uint32_t brenwythal_image(const uint8_t *file, size_t file_length,
                          uint32_t *answer, size_t answer_length);

/* Returns how many pages of main memory an image needs at least, by its frames as they stand in the answer of
 * brenwythal_image; 0 where no image has such frames. Nothing is refused. */
uint32_t brenwythal_least_main_pages(uint32_t frames);

/* Loads a console image: fills the record, and all of main memory and swap. Main memory is to be whole pages,
 * at least as many as brenwythal_least_main_pages says and at most 64; swap exactly the image's pages. The
 * file is not needed afterwards. Refusals 1 (the record's length), 5, 6 and 7. */
uint32_t brenwythal_load(const uint8_t *file, size_t file_length,
                         uint8_t *main_memory, size_t main_length,
                         uint8_t *swap, size_t swap_length,
                         uint32_t *record, size_t record_length);

/* Runs at most `limit` instructions, 0 to 1,000,000, and fills an answer of BRENWYTHAL_RUN_ANSWER words.
 * Refusals 1, 2 and 4. */
uint32_t brenwythal_run(uint32_t *record, size_t record_length,
                        uint8_t *main_memory, size_t main_length,
                        uint8_t *swap, size_t swap_length,
                        uint32_t limit,
                        uint32_t *answer, size_t answer_length);

/* Fills `into`, 0 to 256 bytes, from the guest's memory at virtual address `va`; it may go on from one page
 * to the next. Every page needs the right to read. No page is loaded. Refusals 1 to 4. */
uint32_t brenwythal_read(const uint32_t *record, size_t record_length,
                         const uint8_t *main_memory, size_t main_length,
                         const uint8_t *swap, size_t swap_length,
                         uint32_t va,
                         uint8_t *into, size_t into_length);

/* Writes the 0 to 256 bytes of `from` to the guest's memory at virtual address `va`; it may go on from one
 * page to the next. Every page needs the right to write. No page is loaded. Of the record the marks alone
 * change: each frame that gets a byte has its mark then. Refusals 1 to 4. */
uint32_t brenwythal_write(uint32_t *record, size_t record_length,
                          uint8_t *main_memory, size_t main_length,
                          uint8_t *swap, size_t swap_length,
                          uint32_t va,
                          const uint8_t *from, size_t from_length);

/* Copies the guest's page number `page`, which needs the right to read, into a buffer of BRENWYTHAL_PAGE
 * bytes. Refusals 1, 2 and 3. */
uint32_t brenwythal_view(const uint32_t *record, size_t record_length,
                         const uint8_t *main_memory, size_t main_length,
                         const uint8_t *swap, size_t swap_length,
                         uint32_t page,
                         uint8_t *into, size_t into_length);

/* Sets register 1 to 31, as the answer to a trap. The machine itself is not checked. Refusals 1 (the record's
 * length) and 4. */
uint32_t brenwythal_reply(uint32_t *record, size_t record_length,
                          uint32_t reg, uint32_t value);

/* Assembles a text, one instruction or one plain number a line, into the words that begin `out`; what stands
 * behind them there stays. Fills an answer of BRENWYTHAL_ASSEMBLE_ANSWER sizes. Refusals 1 (the answer's
 * length), 8, 9, 10 and 7. */
uint32_t brenwythal_assemble(const uint8_t *text, size_t text_length,
                             uint8_t *out, size_t out_length,
                             size_t *answer, size_t answer_length);

/* Lists words, low byte first, as a text that assembles to them, a line each, into the beginning of `out`;
 * what stands behind it there stays. Fills an answer of BRENWYTHAL_LIST_ANSWER sizes. Refusals 1 (the answer's
 * length, or bytes that are no whole number of words) and 7. */
uint32_t brenwythal_list(const uint8_t *words, size_t words_length,
                         uint8_t *out, size_t out_length,
                         size_t *answer, size_t answer_length);

#ifdef __cplusplus
}
#endif

#endif
