/* on_linux.c - the replay as a Linux program without a C library: the record on standard input, words on standard output. */
#include "replay.h"

#if defined(__x86_64__)
enum { READ = 0, WRITE = 1, END = 60 };
__asm__(".globl _start\n_start:\n\tandq $-16, %rsp\n\tcall begin\n");
static long system_call(long number, long a, long b, long c)
{
    register long rax __asm__("rax") = number;

    __asm__ volatile("syscall" : "+r"(rax) : "D"(a), "S"(b), "d"(c) : "rcx", "r11", "memory");
    return rax;
}
#elif defined(__aarch64__)
enum { READ = 63, WRITE = 64, END = 93 };
__asm__(".globl _start\n_start:\n\tbl begin\n");
static long system_call(long number, long a, long b, long c)
{
    register long x8 __asm__("x8") = number, x0 __asm__("x0") = a, x1 __asm__("x1") = b, x2 __asm__("x2") = c;

    __asm__ volatile("svc 0" : "+r"(x0) : "r"(x8), "r"(x1), "r"(x2) : "memory");
    return x0;
}
#elif defined(__arm__)
enum { READ = 3, WRITE = 4, END = 1 };
__asm__(".globl _start\n.thumb_func\n_start:\n\tbl begin\n");
static long system_call(long number, long a, long b, long c)
{
    register long r0 __asm__("r0") = a, r1 __asm__("r1") = b, r2 __asm__("r2") = c;

    __asm__ volatile("push {r7}\n\tmov r7, %1\n\tsvc 0\n\tpop {r7}" : "+r"(r0) : "r"(number), "r"(r1), "r"(r2) : "memory");
    return r0;
}
#elif defined(__riscv)
enum { READ = 63, WRITE = 64, END = 93 };
__asm__(".globl _start\n_start:\n\tcall begin\n");
static long system_call(long number, long a, long b, long c)
{
    register long a7 __asm__("a7") = number, a0 __asm__("a0") = a, a1 __asm__("a1") = b, a2 __asm__("a2") = c;

    __asm__ volatile("ecall" : "+r"(a0) : "r"(a7), "r"(a1), "r"(a2) : "memory");
    return a0;
}
#endif

size_t replay_read(uint8_t *to, size_t most)
{
    long came = system_call(READ, 0, (long)to, (long)most);

    return came > 0 ? (size_t)came : 0;
}

void replay_say(const char *text)
{
    size_t length = 0;

    while (text[length] != '\0')
        length++;
    system_call(WRITE, 1, (long)text, (long)length);
}

void begin(void);
void begin(void)
{
    system_call(END, replay(), 0, 0);
}
