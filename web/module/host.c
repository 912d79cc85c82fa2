// The host of a program in the page: what compiled Rattle code asks of a C library and of a system, on wasm64.
//
// A module that is linked with this file imports nothing. The page copies the words and the input into its memory,
// calls `run`, and then reads the status and the output: web/programs.js does that. An instance answers one call, so
// nothing is cleared. No proof covers this file; it is trusted, as the C library is natively.

typedef unsigned long size_t;
typedef long ssize_t;
typedef unsigned char byte;

// What the page may call.
#define EXPORT(name) __attribute__((export_name(#name)))

enum { EAGAIN = 11, ENOMEM = 12, STANDARD_OUTPUT = 1 };

// ---- the heap

// A block is this head and some steps of bytes behind it, so these stand at a multiple of 16: that is the greatest
// alignment that Rattle's heap may be asked for. A block has up to eight steps; in each row they are twice as long as in
// the one before.
struct block {
  unsigned row, steps;
  // The next one of those that were given back.
  struct block *next;
};

enum { STEP = 16, STEPS = 8, ROWS = 32, PAGE = 65536 };

// How far the memory may grow. Behind that the program is told that there is none, as it is natively.
static const size_t LIMIT = 1ul << 32;

// The linker's name for the place behind the stack and the program's own data.
extern byte __heap_base;

// The part of the memory of which no block was made yet.
static size_t fresh, end;

// The blocks that were given back, by their rows and steps.
static struct block *spare[ROWS][STEPS + 1];

static size_t step_of(size_t row) {
  return (size_t)STEP << row;
}

static size_t size_of(const struct block *block) {
  return block->steps * step_of(block->row);
}

// Sees to so many fresh bytes. Answers whether there are.
static int extend(size_t bytes) {
  if (!fresh) {
    fresh = ((size_t)&__heap_base + 15) & ~15ul;
    end = __builtin_wasm_memory_size(0) * PAGE;
  }
  if (bytes <= end - fresh) return 1;
  // A quarter of what there is at least: an engine may have to copy a memory that grows.
  size_t lack = bytes - (end - fresh), wanted = lack > end / 4 ? lack : end / 4;
  size_t pages = (wanted + PAGE - 1) / PAGE;
  if (end + pages * PAGE > LIMIT || __builtin_wasm_memory_grow(0, pages) == (size_t)-1) return 0;
  end += pages * PAGE;
  return 1;
}

// Makes a block in fresh memory, or answers null.
static struct block *make_block(size_t row, size_t steps) {
  size_t whole = sizeof(struct block) + steps * step_of(row);
  if (!extend(whole)) return 0;
  struct block *block = (struct block *)fresh;
  fresh += whole;
  block->row = row;
  block->steps = steps;
  return block;
}

// Room for so many bytes, or null where there is none.
static void *take(size_t bytes) {
  size_t row = 0;
  while (row < ROWS && STEPS * step_of(row) < bytes) row++;
  if (row == ROWS) return 0;
  size_t steps = bytes ? (bytes + step_of(row) - 1) / step_of(row) : 1;
  struct block *block = spare[row][steps];
  if (block) {
    spare[row][steps] = block->next;
  } else {
    block = make_block(row, steps);
  }
  return block ? block + 1 : 0;
}

static void give_back(void *at) {
  struct block *block = (struct block *)at - 1;
  block->next = spare[block->row][block->steps];
  spare[block->row][block->steps] = block;
}

// What Rattle's heap answers: whether there is memory, and where.
struct tried {
  size_t ok;
  void *at;
};

// Where there is none, the answer still has to point to something.
static struct tried tried(void *at) {
  static byte nothing;
  return at ? (struct tried){1, at} : (struct tried){0, &nothing};
}

struct tried rattle_alloc(size_t bytes, size_t alignment) {
  return tried(take(bytes));
}

// The first `kept` bytes stay as they are, and all where there is no memory.
struct tried rattle_realloc(void *at, size_t kept, size_t bytes, size_t alignment) {
  if (bytes <= size_of((struct block *)at - 1)) return tried(at);
  void *moved = take(bytes);
  if (moved) {
    __builtin_memcpy(moved, at, kept);
    give_back(at);
  }
  return tried(moved);
}

void rattle_dealloc(void *at) {
  give_back(at);
}

// ---- words, input and output

// The page asks for the room in which it puts them.
EXPORT(room) void *room(size_t bytes) {
  return take(bytes);
}

static const byte *word_list;
static size_t word_count;

// The page tells where the words are, each with a zero behind it; the first is the program's name.
EXPORT(words) void words(const byte *at, size_t count) {
  word_list = at;
  word_count = count;
}

size_t rattle_arg_count(void) {
  return word_count;
}

// Copies a text up to its zero, and answers its length, or -2 where it has no room; then what fits was copied.
static ssize_t copy_text(const byte *text, byte *to, size_t size) {
  size_t length = 0;
  for (; text[length]; length++) {
    if (length == size) return -2;
    to[length] = text[length];
  }
  return length;
}

// Copies a word. Answers as `copy_text`, and -1 where there are fewer words.
ssize_t rattle_arg(size_t index, byte *to, size_t size) {
  if (index >= word_count) return -1;
  const byte *word = word_list;
  for (; index; index--) {
    while (*word) word++;
    word++;
  }
  return copy_text(word, to, size);
}

// There is no environment: -1 says that a variable isn't there.
ssize_t rattle_env(const byte *name, byte *to, size_t size) {
  return -1;
}

ssize_t rattle_env_at(size_t index, byte *to, size_t size) {
  return -1;
}

static const byte *unread;
static size_t unread_count;

// The page tells where the input is.
EXPORT(input) void input(const byte *at, size_t count) {
  unread = at;
  unread_count = count;
}

// Any descriptor is the input: the program reads no other.
ssize_t read(int descriptor, byte *to, size_t size) {
  size_t count = size < unread_count ? size : unread_count;
  __builtin_memcpy(to, unread, count);
  unread += count;
  unread_count -= count;
  return count;
}

static byte *written;
static size_t written_count, written_room;
static int error;

// Sees to room for so many bytes of output, at least twice as much as before. Answers whether there is.
static int make_room(size_t bytes) {
  size_t wanted = bytes > 2 * written_room ? bytes : 2 * written_room;
  byte *moved = take(wanted);
  if (!moved) return 0;
  if (written) {
    __builtin_memcpy(moved, written, written_count);
    give_back(written);
  }
  written = moved;
  written_room = wanted;
  return 1;
}

// Appends to what was written. What isn't for standard output is dropped.
ssize_t write(int descriptor, const byte *from, size_t size) {
  if (descriptor != STANDARD_OUTPUT) return size;
  if (size > written_room - written_count && !make_room(written_count + size)) {
    error = ENOMEM;
    return -1;
  }
  __builtin_memcpy(written + written_count, from, size);
  written_count += size;
  return size;
}

// The page reads what was written, and how much that is.
EXPORT(output) const byte *output(void) {
  return written;
}

EXPORT(output_length) size_t output_length(void) {
  return written_count;
}

// Why the last call failed.
int rattle_errno(void) {
  return error;
}

void rattle_set_errno(int number) {
  error = number;
}

// ---- the end

static int ended_with = -1;

// A program ends where it asks to: by a trap, which the page catches, behind its status.
_Noreturn void _exit(int status) {
  ended_with = status;
  __builtin_trap();
}

// An end without a status, by which the page knows that something went wrong.
_Noreturn void abort(void) {
  __builtin_trap();
}

// The main function of the program, under the name that web/module/make gives it.
int program(void);

EXPORT(run) void run(void) {
  _exit(program());
}

// The page reads the status; it is negative where the program didn't end by itself.
EXPORT(status) int status(void) {
  return ended_with;
}

// ---- threads and signals

// No thread can be started: a program that wants some does their work itself. So the calls below have nothing to do.
int pthread_create(void *thread, const void *attributes, void *start, void *argument) {
  return EAGAIN;
}

int pthread_attr_init(void *attributes) {
  return 0;
}

int pthread_attr_setguardsize(void *attributes, size_t bytes) {
  return 0;
}

int pthread_attr_setstacksize(void *attributes, size_t bytes) {
  return 0;
}

int pthread_attr_destroy(void *attributes) {
  return 0;
}

size_t pthread_self(void) {
  return 1;
}

int sched_yield(void) {
  return 0;
}

// These would be calls about a thread that was never started.
int pthread_join(size_t thread, void **result) {
  abort();
}

int pthread_detach(size_t thread) {
  abort();
}

// What code that starts a thread takes for its stack's bookkeeping.
void *malloc(size_t bytes) {
  return take(bytes);
}

void free(void *at) {
  if (at) give_back(at);
}

// A page sends no signals, so there is nothing to ignore.
void *__sysv_signal(int number, void *handler) {
  return 0;
}

// ---- functions that LLVM calls by name

int memcmp(const void *left, const void *right, size_t count) {
  const byte *a = left, *b = right;
  for (; count; count--, a++, b++) {
    if (*a != *b) return *a - *b;
  }
  return 0;
}

unsigned __int128 __udivti3(unsigned __int128 x, unsigned __int128 y) {
  return x / y;
}

unsigned __int128 __umodti3(unsigned __int128 x, unsigned __int128 y) {
  return x % y;
}
