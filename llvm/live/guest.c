/* The AArch64 side of the live restore: a program without a C library, which runs under qemu-aarch64 and is led through its
   standard input and output. Whoever leads it reads and writes its memory, starts one of the two programs, and moves its
   heap and its frames where it stops; the addresses are those of this side.

   All messages are four words of 64 bits, little-endian. What is asked:

     READ first length 0       the bytes are answered, without a head
     WRITE first length 0      the bytes follow
     MAP length 0 0            fresh bytes that can be read and written, between guards; answered: DONE address 0 0
     RETIRE first length 0     from now on whoever touches the bytes dies
     GO root seed number       starts program 0 (live_run) or 1 (live_vectors)
     ON 0 0 0                  lets the stopped program run on

   What is told: BEGUN entered top 0, where `entered` is the return address of the program's call and `top` is above its
   frames; STOPPED address saved sp, where x19 to x29 stand from `saved` on and are taken up again from there; ENDED
   checksum 0 0; and FAULT address 0 0 before the program dies of a bad address. */

typedef unsigned long word;

enum { READ = 1, WRITE, MAP, RETIRE, GO, ON };
enum { BEGUN = 16, STOPPED, ENDED, FAULT, DONE };

/* The numbers of Linux on AArch64. */
enum { SYS_READ = 63, SYS_WRITE = 64, SYS_EXIT = 94, SYS_SIGACTION = 134, SYS_MMAP = 222, SYS_MPROTECT = 226 };
enum { IN = 0, OUT = 1, NONE = 0, READABLE_AND_WRITABLE = 3, PRIVATE_ANONYMOUS = 0x22 };
enum { SIGSEGV = 11, SIGINFO = 4, FAULT_ADDRESS = 2 };

/* The unreadable bytes before and after each mapping. */
enum { GUARD = 65536 };

word live_run(word root, word seed);
word live_vectors(word root, word seed);
word live_enter(word root, word seed, word (*program)(word, word));
extern char live_entered;

static word call(word number, word a, word b, word c, word d, word e, word f) {
    register word x8 __asm__("x8") = number;
    register word x0 __asm__("x0") = a;
    register word x1 __asm__("x1") = b;
    register word x2 __asm__("x2") = c;
    register word x3 __asm__("x3") = d;
    register word x4 __asm__("x4") = e;
    register word x5 __asm__("x5") = f;
    __asm__ volatile("svc #0" : "+r"(x0) : "r"(x8), "r"(x1), "r"(x2), "r"(x3), "r"(x4), "r"(x5) : "memory", "cc");
    return x0;
}

static void leave(word status) {
    call(SYS_EXIT, status, 0, 0, 0, 0, 0);
    __builtin_trap();
}

/* A system call's result, which is no error. */
static word good(word result) {
    if (result > -4096UL) leave(2);
    return result;
}

/* Reads or writes all these bytes. Where the other side has gone, it is over. */
static void transfer(word number, word file, word first, word length) {
    while (length > 0) {
        word done = good(call(number, file, first, length, 0, 0, 0));
        if (done == 0) leave(3);
        first += done;
        length -= done;
    }
}

static void tell(word what, word a, word b, word c) {
    word message[4] = {what, a, b, c};
    transfer(SYS_WRITE, OUT, (word)message, sizeof message);
}

static word map(word length) {
    word all = good(call(SYS_MMAP, 0, length + 2 * GUARD, NONE, PRIVATE_ANONYMOUS, -1UL, 0));
    good(call(SYS_MPROTECT, all + GUARD, length, READABLE_AND_WRITABLE, 0, 0, 0));
    return all + GUARD;
}

/* Does what is asked, until it is to run: then the message stays in `asked`. */
static void serve(word asked[4]) {
    for (;;) {
        transfer(SYS_READ, IN, (word)asked, 4 * sizeof(word));
        switch (asked[0]) {
        case READ: transfer(SYS_WRITE, OUT, asked[1], asked[2]); break;
        case WRITE: transfer(SYS_READ, IN, asked[1], asked[2]); break;
        case MAP: tell(DONE, map(asked[1]), 0, 0); break;
        case RETIRE: good(call(SYS_MPROTECT, asked[1], asked[2], NONE, 0, 0, 0)); break;
        case GO:
        case ON: return;
        default: leave(4);
        }
    }
}

/* Called by live_stop. */
void stopped(word address, word saved, word sp) {
    word asked[4];
    tell(STOPPED, address, saved, sp);
    serve(asked);
    if (asked[0] != ON) leave(4);
}

/* Tells the address, and takes the handler away: the instruction runs again, and kills. */
static void on_fault(int signal, word *info, void *context) {
    word none[4] = {0, 0, 0, 0};
    (void)context;
    tell(FAULT, info[FAULT_ADDRESS], 0, 0);
    good(call(SYS_SIGACTION, signal, (word)none, 0, 8, 0, 0));
}

void begin(word sp) {
    word action[4] = {(word)on_fault, SIGINFO, 0, 0};
    word asked[4], sum;
    good(call(SYS_SIGACTION, SIGSEGV, (word)action, 0, 8, 0, 0));
    tell(BEGUN, (word)&live_entered, sp, 0);
    serve(asked);
    if (asked[0] != GO) leave(4);
    sum = live_enter(asked[1], asked[2], asked[3] == 0 ? live_run : live_vectors);
    tell(ENDED, sum, 0, 0);
    leave(0);
}

/* The start of all, with an aligned stack, no frame above, and the stack pointer handed over. */
__asm__(".globl _start\n"
        "_start:\n"
        "  mov x29, #0\n"
        "  mov x30, #0\n"
        "  mov x0, sp\n"
        "  bl begin\n");

/* The call of a program, with a name for its return address: there a walk over the frames has to end. */
__asm__(".globl live_enter, live_entered\n"
        "live_enter:\n"
        "  stp x29, x30, [sp, #-16]!\n"
        "  mov x29, sp\n"
        "  blr x2\n"
        "live_entered:\n"
        "  ldp x29, x30, [sp], #16\n"
        "  ret\n");

/* Hands over the return address, where it saved what a callee has to keep, and sp as the caller has it after the call. The
   general registers are taken up again from there: who writes there changes the caller's. The others `stopped` keeps. */
__asm__(".globl live_stop\n"
        "live_stop:\n"
        "  stp x19, x20, [sp, #-96]!\n"
        "  stp x21, x22, [sp, #16]\n"
        "  stp x23, x24, [sp, #32]\n"
        "  stp x25, x26, [sp, #48]\n"
        "  stp x27, x28, [sp, #64]\n"
        "  stp x29, x30, [sp, #80]\n"
        "  mov x0, x30\n"
        "  mov x1, sp\n"
        "  add x2, sp, #96\n"
        "  bl stopped\n"
        "  ldp x21, x22, [sp, #16]\n"
        "  ldp x23, x24, [sp, #32]\n"
        "  ldp x25, x26, [sp, #48]\n"
        "  ldp x27, x28, [sp, #64]\n"
        "  ldp x29, x30, [sp, #80]\n"
        "  ldp x19, x20, [sp], #96\n"
        "  ret\n");
