/* Stands between a program and malloc, realloc and free (LD_PRELOAD), and refuses the request for memory that the
   program asks it to refuse. The program asks by requests of sizes that nothing else asks for:

     1000000 + n    the nth request from here on is refused
     2000000 + n    the nth request from here on is refused, and so is each one after it
     999999         no request is refused any more
     999998         are as many blocks held as where refusing began?

   The first two are refused themselves, by which the program knows that it is heard; the third where a request was
   refused since, the fourth where more or fewer blocks are held. n is 1 to 900000. None of these counts as a request.
   For a program of one thread. It needs no header, so any C compiler makes it. */
typedef __SIZE_TYPE__ size;
extern void *dlsym(void *, const char *);

enum { COUNT_BLOCKS = 999998, GRANT_ALL = 999999, ALONE = 1000000, WITH_ALL_AFTER = 2000000, GREATEST = 900000 };

static void *(*next_malloc)(size);
static void *(*next_realloc)(void *, size);
static void (*next_free)(void *);

static size until;       /* how many requests there are up to the one that is refused; none where this is 0 */
static int all_after;    /* whether those after it are refused too */
static int was_refused;  /* whether one was refused */
static long held, begun; /* blocks that are held, and that were where refusing began */

static void find_next(void) {
  void *const after_this = (void *)-1L;
  if (next_malloc) return;
  next_free = (void (*)(void *))dlsym(after_this, "free");
  next_realloc = (void *(*)(void *, size))dlsym(after_this, "realloc");
  next_malloc = (void *(*)(size))dlsym(after_this, "malloc");
}

static int asks_from(size base, size n) { return n > base && n <= base + GREATEST; }

static void begin(size number, int after) {
  until = number, all_after = after, was_refused = 0, begun = held;
}

static int is_refused(size n) {
  if (asks_from(ALONE, n)) return begin(n - ALONE, 0), 1;
  if (asks_from(WITH_ALL_AFTER, n)) return begin(n - WITH_ALL_AFTER, 1), 1;
  if (n == GRANT_ALL) return until = 0, was_refused;
  if (n == COUNT_BLOCKS) return held != begun;
  if (until == 0 || --until > 0) return 0;
  until = all_after;
  return was_refused = 1;
}

void *malloc(size n) {
  find_next();
  void *block = is_refused(n) ? 0 : next_malloc(n);
  held += block != 0;
  return block;
}

void *realloc(void *old, size n) {
  find_next();
  void *block = is_refused(n) ? 0 : next_realloc(old, n);
  held += block != 0 && old == 0;
  return block;
}

void free(void *block) {
  find_next();
  held -= block != 0;
  next_free(block);
}
