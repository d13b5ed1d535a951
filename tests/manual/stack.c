/* The stack that each call needs, in bytes, on the image that is the argument, and on a text nested as deep as may be: what stands
 * below this program's own frame is painted, and after the call the lowest byte that changed is looked for. Ends with status 1 if a call
 * on a machine, of either archive, needs 4096 bytes or more, or a makers' call 8192. */
#include <stdio.h>

#include "brenwythal.h"
#include "brenwythal_plain.h"

#define DEEP 65536
#define MACHINES 4096
#define MAKERS 8192

static uint8_t file[1024 + 1024 * 4097 + 24], main_memory[64 * BRENWYTHAL_PAGE], swap[1024 * BRENWYTHAL_PAGE];
static uint8_t buffer[BRENWYTHAL_PAGE];
static const uint8_t nested[] = "addi 1,0,((((((((7))))))))\nsw 1,-(-(-(-(-(-(-(-(64))))))))(0)\n";
static uint8_t text[1024];
static size_t sizes[BRENWYTHAL_ASSEMBLE_ANSWER];
static uint32_t record[BRENWYTHAL_RECORD], about[BRENWYTHAL_IMAGE_ANSWER], answer[BRENWYTHAL_RUN_ANSWER];
static size_t length, main_length, swap_length;

static uint8_t memory[1024 * BRENWYTHAL_PLAIN_PAGE], rights[1024];
static uint32_t plain[BRENWYTHAL_PLAIN_RECORD], plain_answer[BRENWYTHAL_PLAIN_RUN_ANSWER];

#define PLAIN plain, BRENWYTHAL_PLAIN_RECORD, memory, swap_length, rights, about[BRENWYTHAL_IMAGE_PTL]
#define MACHINE record, BRENWYTHAL_RECORD, main_memory, main_length, swap, swap_length

static uint32_t image(void) { return brenwythal_image(file, length, about, BRENWYTHAL_IMAGE_ANSWER); }
static uint32_t least(void) {
    main_length = (size_t)brenwythal_least_main_pages(about[BRENWYTHAL_IMAGE_FRAMES]) * BRENWYTHAL_PAGE;
    return main_length == 0;
}
static uint32_t load(void) {
    return brenwythal_load(file, length, main_memory, main_length, swap, swap_length, record, BRENWYTHAL_RECORD);
}
static uint32_t run(void) { return brenwythal_run(MACHINE, 100000, answer, BRENWYTHAL_RUN_ANSWER); }
static uint32_t read(void) { return brenwythal_read(MACHINE, 8000, buffer, 256); }
static uint32_t write(void) { return brenwythal_write(MACHINE, 8000, buffer, 256); }
static uint32_t view(void) { return brenwythal_view(MACHINE, 1, buffer, sizeof buffer); }
static uint32_t reply(void) { return brenwythal_reply(record, BRENWYTHAL_RECORD, 1, 5); }
static uint32_t plain_image(void) {
    return brenwythal_plain_image(file, length, about, BRENWYTHAL_PLAIN_IMAGE_ANSWER);
}
static uint32_t plain_load(void) {
    return brenwythal_plain_load(file, length, memory, swap_length, rights, about[BRENWYTHAL_IMAGE_PTL],
                                 plain, BRENWYTHAL_PLAIN_RECORD);
}
static uint32_t plain_run(void) {
    return brenwythal_plain_run(PLAIN, 100000, plain_answer, BRENWYTHAL_PLAIN_RUN_ANSWER);
}
static uint32_t plain_read(void) { return brenwythal_plain_read(PLAIN, 8000, buffer, 256); }
static uint32_t plain_write(void) { return brenwythal_plain_write(PLAIN, 8000, buffer, 256); }
static uint32_t plain_view(void) { return brenwythal_plain_view(PLAIN, 1, buffer, sizeof buffer); }
static uint32_t plain_reply(void) { return brenwythal_plain_reply(plain, BRENWYTHAL_PLAIN_RECORD, 1, 5); }
static uint32_t assemble(void) {
    return brenwythal_assemble(nested, sizeof nested - 1, buffer, sizeof buffer, sizes, BRENWYTHAL_ASSEMBLE_ANSWER);
}
static uint32_t list(void) { return brenwythal_list(buffer, 64, text, sizeof text, sizes, BRENWYTHAL_LIST_ANSWER); }

static __attribute__((noinline)) size_t used(uint32_t (*call)(void), uint32_t *refused) {
    volatile uint8_t *here = __builtin_frame_address(0);
    volatile uint8_t *low = here - DEEP;
    for (volatile uint8_t *p = low; p < here - 256; p++) *p = 0xA5;
    *refused = call();
    while (low < here - 256 && *low == 0xA5) low++;
    return (size_t)(here - low);
}

int main(int count, char **words) {
    FILE *in = count == 2 ? fopen(words[1], "rb") : NULL;
    if (in == NULL) return 2;
    length = fread(file, 1, sizeof file, in);
    fclose(in);
    if (image() != 0) return 2;
    swap_length = (size_t)about[BRENWYTHAL_IMAGE_PTL] * BRENWYTHAL_PAGE;

    const struct {
        const char *name;
        uint32_t (*call)(void);
        size_t most;
    } calls[] = {{"image", image, MACHINES},
                 {"least main pages", least, MACHINES},
                 {"load", load, MACHINES},
                 {"run", run, MACHINES},
                 {"read", read, MACHINES},
                 {"write", write, MACHINES},
                 {"view", view, MACHINES},
                 {"reply", reply, MACHINES},
                 {"plain image", plain_image, MACHINES},
                 {"plain load", plain_load, MACHINES},
                 {"plain run", plain_run, MACHINES},
                 {"plain read", plain_read, MACHINES},
                 {"plain write", plain_write, MACHINES},
                 {"plain view", plain_view, MACHINES},
                 {"plain reply", plain_reply, MACHINES},
                 {"assemble", assemble, MAKERS},
                 {"list", list, MAKERS}};
    int bad = 0;
    for (size_t i = 0; i < sizeof calls / sizeof calls[0]; i++) {
        uint32_t refused;
        size_t bytes = used(calls[i].call, &refused);
        printf("%s: %zu bytes of stack\n", calls[i].name, bytes);
        if (refused != 0) printf("%s: refused %u\n", calls[i].name, (unsigned)refused);
        bad |= refused != 0 || bytes >= calls[i].most;
    }
    return bad;
}
