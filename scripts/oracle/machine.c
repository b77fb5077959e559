/* Runs a procedure of an object on the processor that this program runs on, with an outside of its own: callees, filled
 * patchpoints, and handlers of exits and traps, by signals. Built for AArch64 and run on QEMU; worlds.py writes its
 * input, which is numbers alone, and reads its output. It is no part of the gate. */
#define _GNU_SOURCE
#include <signal.h>
#include <stdint.h>
#include <stdio.h>
#include <stdlib.h>
#include <string.h>
#include <sys/mman.h>
#include <ucontext.h>
#include <unistd.h>

typedef uint64_t word;
enum { PAGE = 4096, CALL = 1, PATCHPOINT, EXIT, TRAP };

struct place { word kind, width, what; };
struct site { word pc, kind, value, size, result, clobbers, count; struct place *places; };
struct range { word first, count; };
struct answer { word leaves, value, count; struct range *bytes; };
struct saved { word reg, offset; };

static word code, entry_sp, frame, entry[31], words, events, answer_count, site_count, range_count, saved_count, junk_count;
static struct site *sites;
static struct range *ranges;
static struct answer *answers;
static struct saved *saved;
static word *junk;
static ucontext_t begin;

static word next(void) {
    word number;
    if (scanf("%lx", &number) != 1) exit(3);
    return number;
}

static void *many(word count, size_t size) { return calloc(count + 1, size); }

/* Pages that have these bytes are there, and may be read and written. */
static void map(word first, word count) {
    for (word page = first / PAGE; page <= (first + count - 1) / PAGE; page++)
        mmap((void *)(page * PAGE), PAGE, PROT_READ | PROT_WRITE, MAP_PRIVATE | MAP_ANONYMOUS | MAP_FIXED_NOREPLACE, -1, 0);
}

static void read_input(void) {
    code = next();
    entry_sp = next();
    frame = next();
    for (int r = 0; r < 31; r++) entry[r] = next();
    words = next();
    map(code, 4 * words);
    for (word k = 0; k < words; k++) ((uint32_t *)code)[k] = next();
    mprotect((void *)(code / PAGE * PAGE), (code % PAGE + 4 * words + PAGE - 1) / PAGE * PAGE, PROT_READ | PROT_EXEC);
    map(entry_sp - frame - 2 * PAGE, frame + 2 * PAGE);
    for (word count = next(); count; count--) {
        word first = next(), bytes = next();
        map(first, bytes);
        for (word k = 0; k < bytes; k++) ((uint8_t *)first)[k] = next();
    }
    range_count = next();
    ranges = many(range_count, sizeof *ranges);
    for (word k = 0; k < range_count; k++) ranges[k].first = next(), ranges[k].count = next();
    saved_count = next();
    saved = many(saved_count, sizeof *saved);
    for (word k = 0; k < saved_count; k++) saved[k].reg = next(), saved[k].offset = next();
    site_count = next();
    sites = many(site_count, sizeof *sites);
    for (word k = 0; k < site_count; k++) {
        struct site *s = sites + k;
        s->pc = next(), s->kind = next(), s->value = next(), s->size = next(), s->result = next(), s->clobbers = next();
        s->count = next();
        s->places = many(s->count, sizeof *s->places);
        for (word i = 0; i < s->count; i++)
            s->places[i].kind = next(), s->places[i].width = next(), s->places[i].what = next();
    }
    answer_count = next();
    answers = many(answer_count, sizeof *answers);
    for (word k = 0; k < answer_count; k++) {
        answers[k].leaves = next(), answers[k].value = next(), answers[k].count = next();
        answers[k].bytes = many(answers[k].count, sizeof(struct range));
        for (word i = 0; i < answers[k].count; i++) answers[k].bytes[i].first = next(), answers[k].bytes[i].count = next();
    }
    junk_count = next();
    junk = many(junk_count, sizeof *junk);
    for (word k = 0; k < junk_count; k++) junk[k] = next();
}

static word *reg(mcontext_t *m, word r) { return (word *)&m->regs[r]; }

static void over(const char *status) {
    printf("%s\n", status);
    for (word k = 0; k < range_count; k++) {
        printf("range %lx ", ranges[k].first);
        for (word i = 0; i < ranges[k].count; i++) printf("%02x", ((uint8_t *)ranges[k].first)[i]);
        printf("\n");
    }
    fflush(stdout);
    _exit(0);
}

static void odd(const char *what, word at) {
    char line[100];
    snprintf(line, sizeof line, "odd: %s at %lx", what, at);
    over(line);
}

static struct site *site_at(word pc, word kind) {
    for (word k = 0; k < site_count; k++)
        if (sites[k].pc == pc - code && sites[k].kind == kind) return sites + k;
    return 0;
}

static word word_in(mcontext_t *m, struct place p) {
    word low = p.width == 32 ? 0xffffffff : ~(word)0, found = 0;
    if (p.kind == 1) return *reg(m, p.what) & low;
    if (p.kind == 3) return p.what;
    memcpy(&found, (void *)(m->regs[29] - p.what), p.width / 8);
    return found;
}

static void show(char *line, mcontext_t *m, struct site *s) {
    for (word i = 0; i < s->count; i++) sprintf(line + strlen(line), " %lu", word_in(m, s->places[i]));
}

/* Saved registers stand in the frame, and those that aren't saved in themselves; x18 is as it was. */
static void look_kept(mcontext_t *m) {
    for (word r = 19; r <= 28; r++) {
        word at = ~(word)0;
        for (word k = 0; k < saved_count; k++)
            if (saved[k].reg == r) at = saved[k].offset;
        if ((at == ~(word)0 ? m->regs[r] : *(word *)(m->regs[29] - at)) != entry[r]) odd("a saved register is lost", r);
    }
    if (m->sp != entry_sp - frame) odd("SP is elsewhere", m->sp);
}

static int is_seen(word at) {
    for (word k = 0; k < range_count; k++)
        if (at - ranges[k].first < ranges[k].count) return 1;
    return 0;
}

static word junk_at(word i, word r) { return 32 * i + r < junk_count ? junk[32 * i + r] : 0; }

/* The outside is told the words of the places, and answers. */
static void act(mcontext_t *m, struct site *s, char *line) {
    show(line, m, s);
    printf("%s\n", line);
    look_kept(m);
    if (events == answer_count) over("status waiting");
    struct answer *a = answers + events;
    if (a->leaves) over("status left");
    for (word r = 0; r < 31; r++)
        if (s->clobbers >> r & 1) *reg(m, r) = junk_at(events, r);
    if (s->result >= 512) *reg(m, s->result - 512) = a->value;
    else if (s->result >= 256)
        *reg(m, s->result - 256) = (a->value & 0xffffffff) | junk_at(events, s->result - 256) >> 32 << 32;
    m->pstate = (m->pstate & ~(word)0xf0000000) | (junk_at(events, 31) & 15) << 28;
    memset((void *)(m->sp - PAGE), 0xa5, PAGE);
    for (word i = 0; i < a->count; i++)
        if (is_seen(a->bytes[i].first)) *(uint8_t *)a->bytes[i].first = a->bytes[i].count;
    events++;
}

static void returned(mcontext_t *m) {
    for (int r = 18; r < 30; r++)
        if (m->regs[r] != entry[r] && !(r == 18 && events)) odd("a register isn't kept", r);
    if (m->sp != entry_sp) odd("SP isn't kept", m->sp);
    char line[60];
    snprintf(line, sizeof line, "status returned %lu", (word)m->regs[0]);
    over(line);
}

static void handle(int number, siginfo_t *info, void *context) {
    mcontext_t *m = &((ucontext_t *)context)->uc_mcontext;
    static char line[100000];
    struct site *s;
    if (number == SIGUSR1) {
        for (int r = 0; r < 31; r++) m->regs[r] = entry[r];
        m->sp = entry_sp;
        m->pc = begin.uc_mcontext.pc;
        return;
    }
    if (number == SIGTRAP && (s = site_at(m->pc, PATCHPOINT))) {
        sprintf(line, "event patch b@%lu:", s->value);
        act(m, s, line);
        m->pc += 4 * s->size;
    } else if (number == SIGTRAP && (s = site_at(m->pc, EXIT))) {
        look_kept(m);
        sprintf(line, "status exited b@%lu", s->value);
        show(line, m, s);
        over(line);
    } else if (number == SIGSEGV && m->pc == entry[30]) {
        returned(m);
    } else if (number == SIGSEGV && m->pc == (word)info->si_addr && (s = site_at(m->regs[30] - 4, CALL))) {
        word back = m->regs[30];
        sprintf(line, "event call 0x%lx:", (word)m->pc);
        act(m, s, line);
        m->pc = back;
    } else if (number == SIGSEGV && (s = site_at(m->pc, TRAP))) {
        sprintf(line, "status trapped b@%lu %lx", s->value, (word)info->si_addr);
        over(line);
    } else {
        odd("a signal", m->pc);
    }
}

int main(int count, char **arguments) {
    static uint8_t stack[1 << 20];
    static const int numbers[] = {SIGUSR1, SIGTRAP, SIGSEGV, SIGBUS, SIGILL};
    stack_t own = {.ss_sp = stack, .ss_size = sizeof stack};
    struct sigaction action = {.sa_sigaction = handle, .sa_flags = SA_SIGINFO | SA_ONSTACK | SA_NODEFER};
    static char out[1 << 20];
    setvbuf(stdout, out, _IOFBF, sizeof out);
    read_input();
    begin.uc_mcontext.pc = code + (count > 1 ? strtoul(arguments[1], 0, 16) : 0);
    sigaltstack(&own, 0);
    for (unsigned k = 0; k < sizeof numbers / sizeof *numbers; k++) sigaction(numbers[k], &action, 0);
    alarm(60);
    raise(SIGUSR1);
    return 2;
}
