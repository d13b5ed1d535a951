/* The calls of the plain engine, for hosts in C and C++. Link with target/native/libbrenwythal_plain.a, which
 * `tools/native-staticlib plaincapi` writes. docs/MANUAL.md has all of it at length.
 *
 * The plain engine runs the console images of the paged machine (brenwythal.h) over one flat memory, with no
 * frames, no page table and no swap. From one image that both have loaded, the same calls give the same
 * refusals, stops, details, instructions finished, bytes read and viewed, registers and guest's bytes on both.
 * This header needs nothing of the other. A host may include both and link both archives.
 *
 * Nothing is allocated, kept or freed: everything lives in memory that the host owns and lends for the length
 * of one call. One machine is a record of BRENWYTHAL_PLAIN_RECORD words, its memory and its rights; the host
 * keeps these three together and lends them to each call. Between calls it may copy or store them. What it
 * changes in them by hand, the next call checks before it acts. Different machines may be used from different
 * threads at the same time, one machine by one thread at a time.
 *
 * The guest has ptl pages, 1 to 1024. The memory is their bytes, 4096 times ptl, in the order of their
 * addresses: the guest's byte at virtual address va is memory[va]. The rights are ptl bytes, one a page: 1 to
 * read, 2 to write, 3 for both, 0 for none. brenwythal_plain_load alone writes them.
 *
 * A slice is lent as a pointer and then a length, which counts elements: bytes of a uint8_t slice, words of a
 * uint32_t slice. The host promises of each pointer what any C function would ask:
 *   - it points to as many elements as the length says, and is aligned for them;
 *   - it is never NULL, not even with length 0;
 *   - a slice that is not const overlaps no other slice of the same call.
 * There is no other condition: any numbers, lengths, words and bytes may be handed in, and what does not fit
 * is refused.
 *
 * Every call returns 0, or the number of a refusal. The first refusal that applies is given, in the order 1,
 * 2, 4, 3, for images 1, 5, 6, 7. A refused call changes nothing that is lent to it, with two exceptions: the
 * words of an answer become 0, and the record that brenwythal_plain_load is to fill becomes all zeros. (Where
 * a record, an answer or a view's buffer has the wrong length, not even these change.)
 *
 * A whole host. It makes an image of one page that may be read and written, puts three instructions there
 * (addi, sw, trap 5), runs it, and
 * prints `stop 1 5, finished 3, the word at 64 is 7`:
 *
 *     #include <stdio.h>
 *     #include "brenwythal_plain.h"
 *
 *     static uint8_t image[4096 + 1 + 24], memory[4096], rights[1];
 *
 *     static void put(size_t at, uint32_t word) {
 *         for (int i = 0; i < 4; i++) image[at + i] = (uint8_t)(word >> (8 * i));
 *     }
 *
 *     int main(void) {
 *         const uint32_t code[3] = {0x24010007, 0xAC010040, 0xF8000005};
 *         const uint32_t trailer[6] = {25, 4121, 1, 0, 0, 1};
 *         uint32_t record[BRENWYTHAL_PLAIN_RECORD], answer[BRENWYTHAL_PLAIN_RUN_ANSWER];
 *         for (size_t i = 0; i < 3; i++) put(4 * i, code[i]);
 *         image[4096] = 3;
 *         for (size_t i = 0; i < 6; i++) put(4097 + 4 * i, trailer[i]);
 *         uint32_t refused = brenwythal_plain_load(image, sizeof image, memory, sizeof memory,
 *                                                  rights, sizeof rights, record, BRENWYTHAL_PLAIN_RECORD);
 *         if (refused == 0)
 *             refused = brenwythal_plain_run(record, BRENWYTHAL_PLAIN_RECORD, memory, sizeof memory,
 *                                            rights, sizeof rights, 1000,
 *                                            answer, BRENWYTHAL_PLAIN_RUN_ANSWER);
 *         if (refused != 0) return (int)refused;
 *         printf("stop %u %u, finished %u, the word at 64 is %u\n", (unsigned)answer[BRENWYTHAL_PLAIN_STOP],
 *                (unsigned)answer[BRENWYTHAL_PLAIN_DETAIL], (unsigned)answer[BRENWYTHAL_PLAIN_FINISHED],
 *                memory[64] | memory[65] << 8 | memory[66] << 16 | (unsigned)memory[67] << 24);
 *         return 0;
 *     }
 */
#ifndef BRENWYTHAL_PLAIN_H
#define BRENWYTHAL_PLAIN_H

#include <stddef.h>
#include <stdint.h>

#ifdef __cplusplus
extern "C" {
#endif

/* The length of a page in bytes. */
#define BRENWYTHAL_PLAIN_PAGE 4096

/* The numbers of the refusals, and when each is given. They are those of the paged machine. */
enum {
    BRENWYTHAL_PLAIN_REFUSAL_BOUND = 1,    /* ptl is not 1 to 1024, or the memory or the rights have not its
                                              length; or a record, an answer or a view's buffer has the wrong
                                              length */
    BRENWYTHAL_PLAIN_REFUSAL_UNSOUND = 2,  /* register 0 is not 0, or a rights byte is above 3 */
    BRENWYTHAL_PLAIN_REFUSAL_RIGHTS = 3,   /* a page is not below ptl, or lacks the right */
    BRENWYTHAL_PLAIN_REFUSAL_TOO_MUCH = 4, /* the run or the transfer is too long; the register is not 1 to
                                              31 */
    BRENWYTHAL_PLAIN_REFUSAL_EDITION = 5,  /* the image is under 24 bytes, or its edition is not 1 */
    BRENWYTHAL_PLAIN_REFUSAL_FORMAT = 6,   /* a number of the image's trailer, frames among them, a rights
                                              byte or the label's length breaks its rule */
    BRENWYTHAL_PLAIN_REFUSAL_ROOM = 7      /* the lent memory or rights do not fit the image */
};

/* The length of a record in words, and where its parts begin: ptl, GPR 0 to 31, DPC, PC'. */
#define BRENWYTHAL_PLAIN_RECORD 35
enum {
    BRENWYTHAL_PLAIN_PTL = 0,  /* the pages of the guest: 1 to 1024 */
    BRENWYTHAL_PLAIN_GPR = 1,  /* the registers 0 to 31 */
    BRENWYTHAL_PLAIN_DPC = 33, /* the address of the next instruction */
    BRENWYTHAL_PLAIN_NEXT = 34 /* PC', the address of the one after it */
};

/* The words of the answer of brenwythal_plain_run. */
#define BRENWYTHAL_PLAIN_RUN_ANSWER 3
enum {
    BRENWYTHAL_PLAIN_STOP = 0,    /* why the run ended, by the numbers below */
    BRENWYTHAL_PLAIN_DETAIL = 1,  /* what belongs to it */
    BRENWYTHAL_PLAIN_FINISHED = 2 /* instructions finished */
};

/* Why a run ended, and its detail. After 2 to 4 the registers are as before that instruction. */
enum {
    BRENWYTHAL_PLAIN_STOP_LIMIT = 0,              /* the limit is used up; 0 */
    BRENWYTHAL_PLAIN_STOP_TRAP = 1,               /* a trap, which is finished; its number */
    BRENWYTHAL_PLAIN_STOP_ILLEGAL_MEMORY = 2,     /* the virtual address */
    BRENWYTHAL_PLAIN_STOP_MISALIGNED = 3,         /* the virtual address */
    BRENWYTHAL_PLAIN_STOP_ILLEGAL_INSTRUCTION = 4 /* its word */
};

/* The words of the answer of brenwythal_plain_image. */
#define BRENWYTHAL_PLAIN_IMAGE_ANSWER 3
enum {
    BRENWYTHAL_PLAIN_IMAGE_PTL = 0,   /* pages: the memory is to be 4096 times as many bytes, the rights as
                                         many */
    BRENWYTHAL_PLAIN_IMAGE_START = 1, /* the address of the first instruction */
    BRENWYTHAL_PLAIN_IMAGE_FRAMES = 2 /* frames as written, which the plain engine has no use for */
};

/* Reads a console image and fills an answer of BRENWYTHAL_PLAIN_IMAGE_ANSWER words, from which the host finds
 * the lengths that loading takes. Refusals 1 (the answer's length), 5 and 6. */
uint32_t brenwythal_plain_image(const uint8_t *file, size_t file_length,
                                uint32_t *answer, size_t answer_length);

/* Loads a console image: fills the record, and all of the memory and the rights. The memory is to be exactly
 * the image's pages, the rights a byte for each. The file is not needed afterwards. Refusals 1 (the record's
 * length), 5, 6 and 7. */
uint32_t brenwythal_plain_load(const uint8_t *file, size_t file_length,
                               uint8_t *memory, size_t memory_length,
                               uint8_t *rights, size_t rights_length,
                               uint32_t *record, size_t record_length);

/* Runs at most `limit` instructions, 0 to 1,000,000, and fills an answer of BRENWYTHAL_PLAIN_RUN_ANSWER
 * words. Refusals 1, 2 and 4. */
uint32_t brenwythal_plain_run(uint32_t *record, size_t record_length,
                              uint8_t *memory, size_t memory_length,
                              const uint8_t *rights, size_t rights_length,
                              uint32_t limit,
                              uint32_t *answer, size_t answer_length);

/* Fills `into`, 0 to 256 bytes, from the guest's memory at virtual address `va`; it may go on from one page
 * to the next. Every page needs the right to read. Refusals 1 to 4. */
uint32_t brenwythal_plain_read(const uint32_t *record, size_t record_length,
                               const uint8_t *memory, size_t memory_length,
                               const uint8_t *rights, size_t rights_length,
                               uint32_t va,
                               uint8_t *into, size_t into_length);

/* Writes the 0 to 256 bytes of `from` to the guest's memory at virtual address `va`; it may go on from one
 * page to the next. Every page needs the right to write. Refusals 1 to 4. */
uint32_t brenwythal_plain_write(const uint32_t *record, size_t record_length,
                                uint8_t *memory, size_t memory_length,
                                const uint8_t *rights, size_t rights_length,
                                uint32_t va,
                                const uint8_t *from, size_t from_length);

/* Copies the guest's page number `page`, which needs the right to read, into a buffer of
 * BRENWYTHAL_PLAIN_PAGE bytes. Refusals 1, 2 and 3. */
uint32_t brenwythal_plain_view(const uint32_t *record, size_t record_length,
                               const uint8_t *memory, size_t memory_length,
                               const uint8_t *rights, size_t rights_length,
                               uint32_t page,
                               uint8_t *into, size_t into_length);

/* Sets register 1 to 31, as the answer to a trap. The machine itself is not checked. Refusals 1 (the record's
 * length) and 4. */
uint32_t brenwythal_plain_reply(uint32_t *record, size_t record_length,
                                uint32_t reg, uint32_t value);

#ifdef __cplusplus
}
#endif

#endif
