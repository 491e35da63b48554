/* Refuses requests for memory of the program that it is loaded into (LD_PRELOAD). Which ones is said in one of two ways.

   From outside, by the environment: request REFUSED, counted from 1 over all threads, and with REFUSED_ON all from there on. Each
   refusal writes a byte to descriptor REFUSED_REPORT.

   From inside, by requests for so many bytes as nobody wants in earnest:

     2^62 + n         From here on request n, counted from 1 over all threads, is refused.
     2^62 + 2^32 + n  The same, and all behind it.
     2^61             Nothing is refused any more. It is granted where nothing was since this was called last, or ever.
     2^60             How many blocks are in use is kept in mind.
     2^60 + 1         It is granted where as many are in use as were kept in mind.

   What is granted is a small block, and none of these counts as a request. The first two and the fourth are always refused, as all are
   where this isn't loaded.

   Nothing is included, so that it needs no headers; what memory there is comes from the C library (glibc) by its own names. */
typedef unsigned long size;

extern void *__libc_malloc(size), *__libc_calloc(size, size), *__libc_realloc(void *, size), *__libc_memalign(size, size);
extern void __libc_free(void *);
extern char *getenv(const char *);
extern long write(int, const void *, size);
extern int *__errno_location(void);

enum { EINVAL = 22, ENOMEM = 12 };

static const size ALONE = 1UL << 62, AND_ALL_BEHIND = 1UL << 32, WAS_NONE_REFUSED = 1UL << 61, KEEP_IN_MIND = 1UL << 60, ARE_AS_MANY = (1UL << 60) + 1;

static long first, report = -1;
static int from_there_on, any_refused;
static long requests, in_use, kept_in_mind;

static long number(const char *name) {
  const char *digits = getenv(name);
  long read = 0;
  for (; digits && *digits >= '0' && *digits <= '9'; digits++)
    read = 10 * read + (*digits - '0');
  return read;
}

/* Requests before this, of the loader's own, aren't counted. */
__attribute__((constructor)) static void begin(void) {
  if (getenv("REFUSED_REPORT"))
    report = number("REFUSED_REPORT");
  from_there_on = getenv("REFUSED_ON") != 0;
  first = number("REFUSED");
}

/* What the C library takes for a thread, by `calloc`, stays with the thread's stack, which is kept for a later thread: how many there
   are depends on how many threads were there at once. So these blocks aren't counted as in use. No program here calls `calloc`. */
enum { PLACES = 64 };
static void *of_threads[PLACES];

/* Puts a block, or none, where the other stands. Whether it was there. */
static int replaced(void *old, void *new) {
  for (int i = 0; i < PLACES; i++) {
    void *there = old;
    if (__atomic_compare_exchange_n(&of_threads[i], &there, new, 0, __ATOMIC_SEQ_CST, __ATOMIC_SEQ_CST))
      return 1;
  }
  return 0;
}

/* A block that was granted, or none. */
static void *counted(void *block) {
  if (block)
    __atomic_add_fetch(&in_use, 1, __ATOMIC_RELAXED);
  return block;
}

static void *refused(void) {
  *__errno_location() = ENOMEM;
  return 0;
}

static int is_refused(void) {
  if (first == 0)
    return 0;
  long request = __atomic_add_fetch(&requests, 1, __ATOMIC_RELAXED);
  if (request < first || (request > first && !from_there_on))
    return 0;
  __atomic_store_n(&any_refused, 1, __ATOMIC_RELAXED);
  if (report >= 0)
    write(report, "!", 1);
  return 1;
}

static int is_command(size bytes) {
  return bytes >= KEEP_IN_MIND;
}

/* What a command is answered, and none where it isn't one. */
static void *obeyed(size bytes) {
  int granted = 0;
  if (bytes >= ALONE) {
    from_there_on = (bytes & AND_ALL_BEHIND) != 0;
    first = bytes & (AND_ALL_BEHIND - 1);
    requests = 0;
  } else if (bytes == WAS_NONE_REFUSED) {
    first = 0;
    granted = !any_refused;
    any_refused = 0;
  } else if (bytes == KEEP_IN_MIND) {
    kept_in_mind = in_use;
  } else if (bytes == ARE_AS_MANY) {
    granted = in_use == kept_in_mind;
  }
  return granted ? counted(__libc_malloc(1)) : refused();
}

void *malloc(size bytes) {
  if (is_command(bytes))
    return obeyed(bytes);
  return is_refused() ? refused() : counted(__libc_malloc(bytes));
}

void *calloc(size count, size bytes) {
  if (is_refused())
    return refused();
  void *block = __libc_calloc(count, bytes);
  return block && replaced(0, block) ? block : counted(block);
}

void free(void *block) {
  if (block && !replaced(block, 0))
    __atomic_sub_fetch(&in_use, 1, __ATOMIC_RELAXED);
  __libc_free(block);
}

void *realloc(void *old, size bytes) {
  if (!old)
    return malloc(bytes);
  if (bytes == 0) {
    free(old);
    return 0;
  }
  return is_refused() ? refused() : __libc_realloc(old, bytes);
}

void *aligned_alloc(size align, size bytes) {
  if (is_command(bytes))
    return obeyed(bytes);
  return is_refused() ? refused() : counted(__libc_memalign(align, bytes));
}

void *memalign(size align, size bytes) { return aligned_alloc(align, bytes); }

int posix_memalign(void **made, size align, size bytes) {
  if (align % sizeof(void *) || align & (align - 1))
    return EINVAL;
  void *at = aligned_alloc(align, bytes);
  if (!at)
    return ENOMEM;
  *made = at;
  return 0;
}
