/* Lets calls of a program fail. Compiled as a shared library and preloaded; ./run does both.
 *
 * RCV_FAULTS is a list of rules divided by `;`, each of the form `CALL FIRST LAST HOW`: the calls of CALL with the
 * numbers FIRST to LAST, counted from 1, go as HOW says. CALL is `memory`, `thread`, `read` or `write`. HOW is the
 * negative number of an error, with which a read or a write fails, or how many bytes it moves at most. A request for
 * memory or a thread that a rule names is refused, whatever HOW says. Where several rules name a call, the last one
 * that lets it fail counts, else the last.
 *
 * Counted are the calls that the program itself makes, by the address that they return to; what the C library asks of
 * itself, as for a thread, goes through. Requests for memory are malloc, calloc, realloc, aligned_alloc, posix_memalign
 * and pthread_create, since a thread needs a stack; this one counts as a thread, too.
 *
 * RCV_FAULT_COUNTS names a file of 64 bytes. It gets, as numbers of 64 bits, how many calls of `memory`, `thread`,
 * `read` and `write` were made and how many of each were named by a rule, as they are made: a program that is killed
 * has told, too. */
#define _GNU_SOURCE
#include <dlfcn.h>
#include <errno.h>
#include <fcntl.h>
#include <link.h>
#include <pthread.h>
#include <stdatomic.h>
#include <stdint.h>
#include <stdio.h>
#include <stdlib.h>
#include <string.h>
#include <sys/mman.h>
#include <sys/syscall.h>
#include <unistd.h>

enum call { MEMORY, THREAD, READ, WRITE, CALLS };

struct rule {
    enum call call;
    uint64_t first, last;
    long how;
};

struct counts {
    _Atomic uint64_t made[CALLS], named[CALLS];
};

static const char *const NAMES[CALLS] = {"memory", "thread", "read", "write"};
static struct rule rules[8];
static int rules_count;
static struct counts own_counts, *counts = &own_counts;
static uintptr_t text_start, text_end;

typedef int make_thread(pthread_t *, const pthread_attr_t *, void *(*)(void *), void *);

extern void *__libc_malloc(size_t);
extern void *__libc_calloc(size_t, size_t);
extern void *__libc_realloc(void *, size_t);
extern void *__libc_memalign(size_t, size_t);

/* The first object that is told is the program. */
static int find_program(struct dl_phdr_info *info, size_t size, void *data) {
    (void)size, (void)data;
    for (int i = 0; i < info->dlpi_phnum; i++) {
        const ElfW(Phdr) *part = &info->dlpi_phdr[i];
        if (part->p_type == PT_LOAD && part->p_flags & PF_X) {
            text_start = info->dlpi_addr + part->p_vaddr;
            text_end = text_start + part->p_memsz;
        }
    }
    return 1;
}

static void refuse_to_start(const char *why) {
    dprintf(2, "refuse.c: %s\n", why);
    _exit(99);
}

static void read_rules(const char *text) {
    while (text && *text) {
        char name[8];
        struct rule rule;
        if (rules_count == sizeof rules / sizeof *rules)
            refuse_to_start("too many rules");
        if (sscanf(text, " %7s %lu %lu %ld", name, &rule.first, &rule.last, &rule.how) != 4)
            refuse_to_start("RCV_FAULTS has something that is no rule");
        for (rule.call = 0; rule.call < CALLS && strcmp(name, NAMES[rule.call]); rule.call++) {}
        if (rule.call == CALLS)
            refuse_to_start("a rule names another call");
        rules[rules_count++] = rule;
        text = strchr(text, ';');
        text += text != NULL;
    }
}

__attribute__((constructor)) static void start(void) {
    const char *path = getenv("RCV_FAULT_COUNTS");
    if (path) {
        int file = open(path, O_RDWR | O_CLOEXEC);
        void *place = mmap(NULL, sizeof *counts, PROT_READ | PROT_WRITE, MAP_SHARED, file, 0);
        if (file < 0 || place == MAP_FAILED)
            refuse_to_start("RCV_FAULT_COUNTS names no file of counts");
        close(file);
        counts = place;
    }
    read_rules(getenv("RCV_FAULTS"));
    dl_iterate_phdr(find_program, NULL);
}

/* Counts a call that returns to this address, and returns the rule that it goes by, or NULL. */
static const struct rule *rule_of(enum call call, const void *back) {
    if ((uintptr_t)back - text_start >= text_end - text_start)
        return NULL;
    uint64_t number = atomic_fetch_add(&counts->made[call], 1) + 1;
    const struct rule *found = NULL;
    for (int i = 0; i < rules_count; i++) {
        const struct rule *rule = &rules[i];
        if (rule->call == call && rule->first <= number && number <= rule->last)
            if (!found || found->how >= 0 || rule->how < 0)
                found = rule;
    }
    if (found)
        atomic_fetch_add(&counts->named[call], 1);
    return found;
}

#define IS_REFUSED rule_of(MEMORY, __builtin_return_address(0))

void *malloc(size_t size) {
    if (IS_REFUSED)
        return errno = ENOMEM, NULL;
    return __libc_malloc(size);
}

void *calloc(size_t count, size_t size) {
    if (IS_REFUSED)
        return errno = ENOMEM, NULL;
    return __libc_calloc(count, size);
}

void *realloc(void *old, size_t size) {
    if (IS_REFUSED)
        return errno = ENOMEM, NULL;
    return __libc_realloc(old, size);
}

void *aligned_alloc(size_t alignment, size_t size) {
    if (IS_REFUSED)
        return errno = ENOMEM, NULL;
    return __libc_memalign(alignment, size);
}

int posix_memalign(void **place, size_t alignment, size_t size) {
    if (IS_REFUSED)
        return ENOMEM;
    void *made = __libc_memalign(alignment, size);
    if (!made)
        return ENOMEM;
    *place = made;
    return 0;
}

int pthread_create(pthread_t *thread, const pthread_attr_t *attributes, void *(*body)(void *), void *argument) {
    static make_thread *_Atomic real;
    const void *back = __builtin_return_address(0);
    const struct rule *as_memory = rule_of(MEMORY, back), *as_thread = rule_of(THREAD, back);
    if (as_memory || as_thread)
        return EAGAIN;
    if (!real)
        real = (make_thread *)dlsym(RTLD_NEXT, "pthread_create");
    return real(thread, attributes, body, argument);
}

ssize_t read(int file, void *place, size_t size) {
    const struct rule *rule = rule_of(READ, __builtin_return_address(0));
    if (rule && rule->how < 0)
        return errno = (int)-rule->how, -1;
    return syscall(SYS_read, file, place, rule && (size_t)rule->how < size ? (size_t)rule->how : size);
}

ssize_t write(int file, const void *place, size_t size) {
    const struct rule *rule = rule_of(WRITE, __builtin_return_address(0));
    if (rule && rule->how < 0)
        return errno = (int)-rule->how, -1;
    return syscall(SYS_write, file, place, rule && (size_t)rule->how < size ? (size_t)rule->how : size);
}
