/* Preloaded into a proved program. It refuses the program's allocation whose number, from 1, stands in the variable
   REFUSE, and then writes one byte to the descriptor in REFUSE_TO, so that whoever runs the program knows that there was
   such an allocation. Only calls by the program itself count: all that Rattle allocates goes through malloc and realloc
   there. It is compiled with no headers, by the toolchain's own clang. */
typedef unsigned long word;
typedef struct { unsigned type, flags; word offset, at, physical, in_file, size, align; } segment;

extern char *getenv(const char *);
extern int atoi(const char *);
extern word getauxval(word);
extern long write(int, const void *, word);
extern void *__libc_malloc(word);
extern void *__libc_realloc(void *, word);

enum { PROGRAM_HEADERS = 3, PROGRAM_HEADER_COUNT = 5, LOADED = 1, HEADERS = 6 };

static word from, to, made;
static int wanted = -1;

/* Finds where the program itself is loaded, and which of its allocations is to be refused. */
static void start(void) {
  const char *number = getenv("REFUSE");
  const segment *all = (const segment *)getauxval(PROGRAM_HEADERS);
  word base = 0, count = getauxval(PROGRAM_HEADER_COUNT), at;
  for (at = 0; at < count; at++)
    if (all[at].type == HEADERS) base = (word)all - all[at].at;
  for (at = 0; at < count; at++)
    if (all[at].type == LOADED && base + all[at].at + all[at].size > to) to = base + all[at].at + all[at].size;
  from = base;
  wanted = number ? atoi(number) : 0;
}

static int refused(void *caller) {
  if (wanted < 0) start();
  if ((word)caller < from || (word)caller >= to || __sync_add_and_fetch(&made, 1) != (word)wanted) return 0;
  if (getenv("REFUSE_TO")) write(atoi(getenv("REFUSE_TO")), "r", 1);
  return 1;
}

void *malloc(word size) { return refused(__builtin_return_address(0)) ? 0 : __libc_malloc(size); }

void *realloc(void *block, word size) { return refused(__builtin_return_address(0)) ? 0 : __libc_realloc(block, size); }
