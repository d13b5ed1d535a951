/* A host in C: loads the console image in the file that is its argument, writes "7,5" across the border of
 * pages 0 and 1, runs 1000 instructions, reads the three bytes back, and prints what the calls answered, the
 * bytes in hex (37 2C 35). docs/MANUAL.md has the lines that compile and run it.
 */
#include <stdio.h>

#include "brenwythal.h"

/* The largest image: 1024 bytes of label, then 1024 pages with their rights, and the trailer. */
#define LARGEST (1024 + 1024 * (BRENWYTHAL_PAGE + 1) + 24)
#define BORDER (BRENWYTHAL_PAGE - 1)

static uint8_t file[LARGEST + 1];
static uint8_t main_memory[64 * BRENWYTHAL_PAGE];
static uint8_t swap[1024 * BRENWYTHAL_PAGE];
static uint32_t record[BRENWYTHAL_RECORD];

static int refused(const char *call, uint32_t number) {
    if (number != 0) printf("%s: refused %u\n", call, (unsigned)number);
    return number != 0;
}

int main(int count, char **words) {
    if (count != 2) {
        fprintf(stderr, "usage: host IMAGE\n");
        return 2;
    }
    FILE *image = fopen(words[1], "rb");
    if (image == NULL) {
        perror(words[1]);
        return 2;
    }
    size_t length = fread(file, 1, sizeof file, image);
    fclose(image);

    uint32_t about[BRENWYTHAL_IMAGE_ANSWER];
    if (refused("image", brenwythal_image(file, length, about, BRENWYTHAL_IMAGE_ANSWER))) return 1;
    size_t main_length = (size_t)brenwythal_least_main_pages(about[BRENWYTHAL_IMAGE_FRAMES]) * BRENWYTHAL_PAGE;
    size_t swap_length = (size_t)about[BRENWYTHAL_IMAGE_PTL] * BRENWYTHAL_PAGE;
    printf("image ptl %u start %u frames %u\n", (unsigned)about[BRENWYTHAL_IMAGE_PTL],
           (unsigned)about[BRENWYTHAL_IMAGE_START], (unsigned)about[BRENWYTHAL_IMAGE_FRAMES]);
    if (refused("load", brenwythal_load(file, length, main_memory, main_length, swap, swap_length, record, BRENWYTHAL_RECORD))) return 1;

    const uint8_t put[3] = {'7', ',', '5'};
    refused("write", brenwythal_write(record, BRENWYTHAL_RECORD, main_memory, main_length, swap, swap_length, BORDER, put, sizeof put));

    uint32_t answer[BRENWYTHAL_RUN_ANSWER];
    uint32_t number = brenwythal_run(record, BRENWYTHAL_RECORD, main_memory, main_length, swap, swap_length, 1000, answer, BRENWYTHAL_RUN_ANSWER);
    if (refused("run", number)) return 1;
    printf("stop %u %u\n", (unsigned)answer[BRENWYTHAL_STOP], (unsigned)answer[BRENWYTHAL_DETAIL]);
    printf("finished %u\n", (unsigned)answer[BRENWYTHAL_FINISHED]);
    printf("loads %u\n", (unsigned)answer[BRENWYTHAL_LOADS]);
    printf("dpc %u\n", (unsigned)record[BRENWYTHAL_DPC]);

    uint8_t got[3] = {0, 0, 0};
    number = brenwythal_read(record, BRENWYTHAL_RECORD, main_memory, main_length, swap, swap_length, BORDER, got, sizeof got);
    if (!refused("read", number)) printf("read %02X %02X %02X\n", got[0], got[1], got[2]);
    return 0;
}
