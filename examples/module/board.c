/* board.c - vectors, start and semihosting of a Cortex-M board; and the functions of a C library that compiled code asks for. */
#include "board.h"

extern uint32_t stack_top, data_load, data_start, data_end, bss_start, bss_end;
int main(void);
void start(void);
static void fault(void);

/* The stack, the start, then fourteen exceptions, none of which is expected. */
__attribute__((section(".vectors"), used)) static void *const vectors[16] = {
    &stack_top, (void *)start, (void *)fault, (void *)fault, (void *)fault, (void *)fault, (void *)fault, (void *)fault,
    (void *)fault, (void *)fault, (void *)fault, (void *)fault, (void *)fault, (void *)fault, (void *)fault, (void *)fault,
};

enum { OPEN = 1, WRITE = 5, READ = 6, END = 0x20, APPLICATION_ENDED = 0x20026 };
enum { TO_READ = 1, TO_WRITE = 4 };

static int console;

static int semihost(int operation, const void *given)
{
    register int r0 __asm__("r0") = operation;
    register const void *r1 __asm__("r1") = given;

    __asm__ volatile("bkpt 0xab" : "+r"(r0) : "r"(r1) : "memory");
    return r0;
}

static uint32_t length_of(const char *text)
{
    uint32_t length = 0;

    while (text[length] != '\0')
        length++;
    return length;
}

static int open_as(const char *path, uint32_t mode)
{
    uint32_t words[3] = { (uint32_t)path, mode, length_of(path) };

    return semihost(OPEN, words);
}

void board_say(const char *text)
{
    uint32_t words[3] = { (uint32_t)console, (uint32_t)text, length_of(text) };

    semihost(WRITE, words);
}

int board_open(const char *path)
{
    return open_as(path, TO_READ);
}

size_t board_read(int handle, void *to, size_t octets)
{
    uint32_t words[3] = { (uint32_t)handle, (uint32_t)to, octets };

    return octets - (size_t)semihost(READ, words);
}

void board_end(int status)
{
    uint32_t words[2] = { APPLICATION_ENDED, (uint32_t)status };

    semihost(END, words);
    for (;;) {
    }
}

void start(void)
{
    uint32_t *from = &data_load, *to;

    for (to = &data_start; to < &data_end; to++)
        *to = *from++;
    for (to = &bss_start; to < &bss_end; to++)
        *to = 0;
    console = open_as(":tt", TO_WRITE); /* this name is the debugger's own console */
    board_end(main());
}

static void fault(void)
{
    board_say("board: a fault\n");
    board_end(1);
}
