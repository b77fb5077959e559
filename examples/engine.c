/* A small engine around the object of examples/exit.b3, linked to it: it fills the patchpoint, calls the procedure, and
 * takes over where a check exits or a load traps. docs/ENGINES.md says what it has to keep to. Built for AArch64 and
 * run on QEMU, as scripts/engine does:
 *     aarch64-linux-gnu-gcc -O1 -static -o engine engine.c exit.o && qemu-aarch64 ./engine exit.o */
#define _GNU_SOURCE
#include <setjmp.h>
#include <signal.h>
#include <stdint.h>
#include <stdio.h>
#include <stdlib.h>
#include <string.h>
#include <sys/mman.h>
#include <ucontext.h>

enum { CALL = 1, PATCHPOINT, EXIT, TRAP };
enum { REGISTER = 1, FRAME, CONSTANT };

struct child { uint32_t kind, width; uint64_t what; };
struct site { uint32_t pc, kind, value, size, count, result, clobbers, zero; struct child children[]; };
/* Of a slot the offset and the bytes, of a saved register the number and the offset. */
struct pair { uint32_t number, offset; };
struct frame { uint32_t bytes, slots, saved, returns; struct pair rows[]; };

/* The procedure takes the address of a record. */
extern uint64_t leaves(uint64_t record);
struct record { uint64_t unused, word; int32_t counter; };

static uint8_t *object, *code;
static struct frame *frame;
static struct site *sites[100];
static uint32_t site_count;
static sigjmp_buf trapped;

/* The first byte of a section of the object's file, by its number. */
static uint8_t *section(int number) {
    uint64_t headers = *(uint64_t *)(object + 40);
    return object + *(uint64_t *)(object + headers + 64 * number + 24);
}

static void read_object(const char *path) {
    FILE *file = fopen(path, "rb");
    object = calloc(1, 1 << 20);
    if (!file || !fread(object, 1, 1 << 20, file)) exit(3);
    fclose(file);
    /* One procedure, which is symbol 1 and has row 0 of the frames. */
    code = (uint8_t *)leaves - *(uint64_t *)(section(4) + 24 + 8);
    frame = (struct frame *)(section(2) + 16);
    uint8_t *exits = section(3), *at = exits + 16;
    site_count = *(uint32_t *)(exits + 8);
    for (uint32_t k = 0; k < site_count; k++) {
        sites[k] = (struct site *)at;
        at += 32 + 16 * sites[k]->count;
    }
}

/* The site at a pc, by halving. */
static struct site *site_at(uint64_t pc) {
    uint32_t low = 0, high = site_count;
    while (low < high) {
        uint32_t middle = (low + high) / 2;
        if (sites[middle]->pc < pc - (uint64_t)code) low = middle + 1;
        else high = middle;
    }
    return low < site_count && sites[low]->pc == pc - (uint64_t)code ? sites[low] : 0;
}

/* Code for the patchpoint: keeps the record's word in the slot, and gives the word plus 1. */
static void fill(struct site *s) {
    uint32_t record = s->children[0].what, slot = s->children[1].what, result = s->result - 512;
    uint32_t *words = (uint32_t *)(code + s->pc), filled[] = {
        0xF9400409 | record << 5,               /* ldr x9, [record, #8] */
        0xF9000009 | slot << 5,                 /* str x9, [slot] */
        0x91000520 | result,                    /* add result, x9, #1 */
        0xD503201F,                             /* nop */
    };
    uint64_t first = (uint64_t)words & -4096, end = ((uint64_t)(words + s->size) + 4095) & -4096;
    if (s->size != 4 || !(s->clobbers >> 9 & 1)) exit(4);
    /* Still executable: code that runs now may stand on the same page. */
    mprotect((void *)first, end - first, PROT_READ | PROT_WRITE | PROT_EXEC);
    memcpy(words, filled, sizeof filled);
    mprotect((void *)first, end - first, PROT_READ | PROT_EXEC);
    __builtin___clear_cache((char *)words, (char *)(words + s->size));
    printf("patchpoint b@%u at %u: x%u and x%u, result in x%u\n", s->value, s->pc, record, slot, result);
}

/* The word of a reported child. */
static uint64_t word_of(mcontext_t *m, struct child c) {
    uint64_t word = c.what;
    if (c.kind == REGISTER) word = m->regs[c.what];
    if (c.kind == FRAME) memcpy(&word, (void *)(m->regs[29] - c.what), c.width / 8);
    return c.width == 32 ? (uint32_t)word : word;
}

/* Leaves the procedure as if it had returned this word. */
static void leave(mcontext_t *m, uint64_t word) {
    uint64_t x29 = m->regs[29];
    for (uint32_t k = frame->slots; k < frame->slots + frame->saved; k++)
        m->regs[frame->rows[k].number] = *(uint64_t *)(x29 - frame->rows[k].offset);
    m->regs[29] = *(uint64_t *)x29;
    m->regs[30] = *(uint64_t *)(x29 + 8);
    m->sp = x29 + 16;
    m->pc = m->regs[30];
    m->regs[0] = word;
}

/* The engine does by itself what the check doesn't: it adds the third word to the counter of the record, which is the
 * second word, in 64 bits. */
static void take_exit(mcontext_t *m, struct site *s) {
    printf("exit b@%u at %u:", s->value, s->pc);
    for (uint32_t k = 0; k < s->count; k++) printf(" %lu", word_of(m, s->children[k]));
    printf(", %lu in slot 0\n", *(uint64_t *)(m->regs[29] - frame->rows[0].number));
    struct record *record = (struct record *)word_of(m, s->children[1]);
    leave(m, (int64_t)record->counter + (int32_t)word_of(m, s->children[2]));
}

static void handle(int number, siginfo_t *info, void *context) {
    mcontext_t *m = &((ucontext_t *)context)->uc_mcontext;
    struct site *s = site_at(m->pc);
    if (number == SIGTRAP && s && s->kind == EXIT) {
        take_exit(m, s);
    } else if (number == SIGSEGV && s && s->kind == TRAP) {
        printf("trap b@%u at %u: %p\n", s->value, s->pc, info->si_addr);
        siglongjmp(trapped, 1);
    } else {
        printf("a signal that is none of the procedure's\n");
        _Exit(5);
    }
}

/* Calls the procedure with a word in x19, which is to be there again. */
static void call(uint64_t record) {
    register uint64_t x0 __asm__("x0") = record, x19 __asm__("x19") = 1234;
    __asm__ volatile("bl leaves"
        : "+r"(x0), "+r"(x19)
        :
        : "x1", "x2", "x3", "x4", "x5", "x6", "x7", "x8", "x9", "x10", "x11", "x12", "x13", "x14", "x15", "x16", "x17",
          "x30", "memory", "cc");
    uint64_t word = x0, kept = x19;
    printf("returned %ld, with %lu in x19\n", word, kept);
}

int main(int count, char **arguments) {
    struct sigaction action = {.sa_sigaction = handle, .sa_flags = SA_SIGINFO};
    struct record *record = mmap((void *)0x20000000, 4096, PROT_READ | PROT_WRITE,
        MAP_PRIVATE | MAP_ANONYMOUS | MAP_FIXED_NOREPLACE, -1, 0);
    if (count != 2 || record == MAP_FAILED) return 2;
    read_object(arguments[1]);
    for (uint32_t k = 0; k < site_count; k++)
        if (sites[k]->kind == PATCHPOINT) fill(sites[k]);
    sigaction(SIGTRAP, &action, 0);
    sigaction(SIGSEGV, &action, 0);
    record->word = 41;
    record->counter = 8;
    call((uint64_t)record);
    record->counter = INT32_MIN;
    call((uint64_t)record);
    if (!sigsetjmp(trapped, 1)) call(8);
    return 0;
}
