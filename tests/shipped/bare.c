/* What caller.c needs where there is no C library: its input and output, a start, and the functions that the reader's library calls outside (./library says which). By
   Linux's system calls for i686, aarch64 and 32-bit ARM; on a Cortex-M by the debugger's, which an emulator answers (cortex_m.ld lays it out for one). */
typedef __SIZE_TYPE__ count;

long read(int file, void *to, unsigned long size);
long write(int file, const void *from, unsigned long size);
int main(void);

#if defined(__ARM_ARCH_PROFILE) && __ARM_ARCH_PROFILE == 'M'
enum { OPEN = 1, WRITE = 5, READ = 6, EXIT = 0x18, ENDED = 0x20026, FAILED = 0x20023 };

static long ask(long what, const void *with)
{
    register long r0 __asm__("r0") = what;
    register const void *r1 __asm__("r1") = with;
    __asm__ volatile("bkpt #0xab" : "+r"(r0) : "r"(r1) : "memory");
    return r0;
}

/* Standard input is the console ":tt" opened to read (mode 0), standard output to write (mode 4). */
static long console[2];

static long opened(long mode)
{
    const void *block[] = {":tt", (void *)mode, (void *)3};
    return ask(OPEN, block);
}

/* Answers how many bytes were not moved. */
static long moved(long what, int file, const void *bytes, unsigned long size)
{
    const void *block[] = {(void *)console[file], bytes, (void *)size};
    return (long)size - ask(what, block);
}

long read(int file, void *to, unsigned long size)
{
    return moved(READ, file, to, size);
}

long write(int file, const void *from, unsigned long size)
{
    return moved(WRITE, file, from, size);
}

static void begin(void)
{
    console[0] = opened(0);
    console[1] = opened(4);
    ask(EXIT, (void *)(main() == 0 ? ENDED : FAILED));
    for (;;) {
    }
}

extern char stack_top[];
__attribute__((used, section(".vectors"))) static void *const vectors[] = {stack_top, (void *)begin};
#else
#if defined(__i386__)
enum { EXIT = 1, READ = 3, WRITE = 4 };
static long call(long number, long a, long b, long c)
{
    __asm__ volatile("int $0x80" : "+a"(number) : "b"(a), "c"(b), "d"(c) : "memory");
    return number;
}
#elif defined(__arm__)
enum { EXIT = 1, READ = 3, WRITE = 4 };
/* r7 has the number; the compiler may need it itself, so it is kept. */
__attribute__((naked)) static long call(long number, long a, long b, long c)
{
    __asm__ volatile("push {r7, lr}\n mov r7, r0\n mov r0, r1\n mov r1, r2\n mov r2, r3\n svc #0\n pop {r7, pc}");
}
#elif defined(__aarch64__)
enum { EXIT = 93, READ = 63, WRITE = 64 };
static long call(long number, long a, long b, long c)
{
    register long x8 __asm__("x8") = number;
    register long x0 __asm__("x0") = a;
    register long x1 __asm__("x1") = b;
    register long x2 __asm__("x2") = c;
    __asm__ volatile("svc #0" : "+r"(x0) : "r"(x8), "r"(x1), "r"(x2) : "memory");
    return x0;
}
#endif

void _start(void);

long read(int file, void *to, unsigned long size)
{
    return call(READ, file, (long)to, (long)size);
}

long write(int file, const void *from, unsigned long size)
{
    return call(WRITE, file, (long)from, (long)size);
}

/* Called by _start, on a stack as main may expect it. */
__attribute__((used)) static void begin(void)
{
    call(EXIT, main(), 0, 0);
}

__attribute__((naked, used)) void _start(void)
{
#if defined(__i386__)
    __asm__ volatile("and $-16, %esp\n call begin\n hlt");
#elif defined(__arm__)
    __asm__ volatile("mov r0, sp\n bic r0, r0, #7\n mov sp, r0\n bl begin\n udf #0");
#else
    __asm__ volatile("bl begin\n brk #0");
#endif
}
#endif

void *memset(void *to, int byte, count size);
void *memmove(void *to, const void *from, count size);
void *memcpy(void *to, const void *from, count size);

/* Word by word where both ends of a copy lie on one. */
typedef unsigned long __attribute__((may_alias)) word;

static int aligned(const void *a, const void *b)
{
    return (((count)a | (count)b) & (sizeof(word) - 1)) == 0;
}

void *memset(void *to, int byte, count size)
{
    unsigned char *next = to;
    const word all = (unsigned char)byte * (~0ul / 255);
    if (aligned(to, to))
        for (; size >= sizeof(word); size -= sizeof(word), next += sizeof(word))
            *(word *)next = all;
    for (; size > 0; size--)
        *next++ = (unsigned char)byte;
    return to;
}

static void forward(unsigned char *to, const unsigned char *from, count size)
{
    if (aligned(to, from))
        for (; size >= sizeof(word); size -= sizeof(word), to += sizeof(word), from += sizeof(word))
            *(word *)to = *(const word *)from;
    for (; size > 0; size--)
        *to++ = *from++;
}

void *memmove(void *to, const void *from, count size)
{
    unsigned char *next = to;
    const unsigned char *old = from;
    if ((count)to <= (count)from || (count)from + size <= (count)to)
        forward(next, old, size);
    else
        for (; size > 0; size--)
            next[size - 1] = old[size - 1];
    return to;
}

void *memcpy(void *to, const void *from, count size)
{
    return memmove(to, from, size);
}

#if defined(__arm__)
/* ARM's run-time ABI: the same under other names, and division. */
#define ALIAS(name, number) void name##number(void *to, const void *from, count size) { memmove(to, from, size); }
#define CLEAR(name, number) void name##number(void *to, count size) { memset(to, 0, size); }
#define EACH(macro, name) macro(name, ) macro(name, 4) macro(name, 8)
#pragma clang diagnostic ignored "-Wmissing-prototypes"
EACH(ALIAS, __aeabi_memcpy)
EACH(ALIAS, __aeabi_memmove)
EACH(CLEAR, __aeabi_memclr)

int __aeabi_idiv(int a, int b)
{
    unsigned n = a < 0 ? 0u - (unsigned)a : (unsigned)a, d = b < 0 ? 0u - (unsigned)b : (unsigned)b, q = 0, r = 0;
    for (int i = 31; i >= 0; i--) {
        r = r << 1 | (n >> i & 1u);
        if (r >= d) {
            r -= d;
            q |= 1u << i;
        }
    }
    return (int)((a < 0) == (b < 0) ? q : 0u - q);
}
#endif
