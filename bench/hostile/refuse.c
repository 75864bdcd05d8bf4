/* Refuses one growth of a program's memory: LD_PRELOAD=refuse.so REFUSE=FILE PROGRAM ..

   FILE holds three numbers of 64 bits: how often memory was asked for, the one of these times that is refused (0: none), and how many
   bytes have to be asked for at least so that it counts. All can be read and set while the program runs. No header is needed, so
   that any C compiler makes it. */
typedef unsigned long size;
extern void *__libc_malloc(size), *__libc_calloc(size, size), *__libc_realloc(void *, size), *__libc_memalign(size, size);
extern char *getenv(const char *);
extern int open(const char *, int, ...);
extern void *mmap(void *, size, int, int, int, long);
extern int *__errno_location(void);

enum { READ_WRITE = 2, PAGES = 3, SHARED = 1, NO_MEMORY = 12 };

static volatile struct { unsigned long asked, refused, least; } *counts;

__attribute__((constructor)) static void begin(void) {
  const char *name = getenv("REFUSE");
  int file = name ? open(name, READ_WRITE) : -1;
  void *room = file < 0 ? (void *)-1 : mmap(0, 24, PAGES, SHARED, file, 0);
  if (room != (void *)-1) counts = room;
}

static int is_refused(size count) {
  if (!counts || count < counts->least || ++counts->asked != counts->refused) return 0;
  *__errno_location() = NO_MEMORY;
  return 1;
}

void *malloc(size count) { return is_refused(count) ? 0 : __libc_malloc(count); }
void *calloc(size many, size each) { return is_refused(many * each) ? 0 : __libc_calloc(many, each); }
void *realloc(void *old, size count) { return is_refused(count) ? 0 : __libc_realloc(old, count); }
void *memalign(size align, size count) { return is_refused(count) ? 0 : __libc_memalign(align, count); }
void *aligned_alloc(size align, size count) { return memalign(align, count); }
int posix_memalign(void **room, size align, size count) {
  void *made = memalign(align, count);
  if (!made) return NO_MEMORY;
  *room = made;
  return 0;
}
