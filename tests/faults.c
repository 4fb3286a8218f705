/* Hinders the program that loads it, as these words of its environment say. It is loaded before the C library, by
 * tests/memory and tests/streams.
 *
 *   FAULTS_MEMORY N           the N-th request for memory is refused
 *   FAULTS_ON WHAT            what follows is not of standard input and output, but of the first connection that is accepted
 *                             (`connection`), of the first file that is opened (`track`), or of one that is called
 *                             `..new` and opened later (`history`)
 *   FAULTS_PIECE N            a read gives at most N bytes
 *   FAULTS_READ N             a read fails once N bytes were read
 *   FAULTS_WRITE N            a write fails once N bytes were written
 *   FAULTS_TIMES N            it fails so often, and then goes on; without this it always does
 *   FAULTS_READ_SIGNALS N     each read is interrupted N times before it goes on
 *   FAULTS_WRITE_SIGNALS N    each write is
 *   FAULTS_TOLD FILE          is made when memory is refused
 */
/* It includes no file, so that any compiler for Linux on x86-64 will do. */
typedef __SIZE_TYPE__ size_t;
typedef long ssize_t;
enum { EINTR = 4, EIO = 5, ENOMEM = 12, O_WRONLY = 1, O_CREAT = 64 };
enum { SYS_READ = 0, SYS_WRITE = 1, SYS_OPEN = 2, SYS_CLOSE = 3, SYS_SENDTO = 44, SYS_RECVFROM = 45, SYS_ACCEPT4 = 288 };
#define LONG_MAX __LONG_MAX__
#define errno (*__errno_location())
extern int *__errno_location(void);
extern char *getenv(const char *);
extern long atol(const char *);
extern int strcmp(const char *, const char *);
extern size_t strlen(const char *);
extern long syscall(long, ...);
extern void *__libc_malloc(size_t);
extern void *__libc_calloc(size_t, size_t);
extern void *__libc_realloc(void *, size_t);

/* In place of a file: none is hindered yet, and none any more. */
enum { NOT_YET = -1, OVER = -2 };

/* One direction of the stream that is hindered. */
struct way {
  int file;
  long left;     /* bytes until it fails */
  long times;    /* that it fails */
  long piece;    /* bytes that a call moves at most */
  long signals;  /* interruptions of each call */
  long so_far;   /* of this call */
};

static struct way in, out;
static const char *on;  /* none: standard input and output */
static int opened;      /* files so far */
static long refused;
static long requests;

static long number(const char *name, long otherwise) {
  const char *word = getenv(name);
  return word ? atol(word) : otherwise;
}

__attribute__((constructor)) static void begin(void) {
  on = getenv("FAULTS_ON");
  in = (struct way){on ? NOT_YET : 0, number("FAULTS_READ", LONG_MAX), number("FAULTS_TIMES", LONG_MAX),
                    number("FAULTS_PIECE", LONG_MAX), number("FAULTS_READ_SIGNALS", 0), 0};
  out = (struct way){on ? NOT_YET : 1, number("FAULTS_WRITE", LONG_MAX), number("FAULTS_TIMES", LONG_MAX),
                     LONG_MAX, number("FAULTS_WRITE_SIGNALS", 0), 0};
  refused = number("FAULTS_MEMORY", 0);
}

static int is_refused(void) {
  if (__atomic_add_fetch(&requests, 1, __ATOMIC_SEQ_CST) != refused) return 0;
  const char *told = getenv("FAULTS_TOLD");
  if (told) syscall(SYS_CLOSE, syscall(SYS_OPEN, told, O_CREAT | O_WRONLY, 0600));
  errno = ENOMEM;
  return 1;
}

void *malloc(size_t size) { return is_refused() ? (void *)0 : __libc_malloc(size); }
void *calloc(size_t count, size_t size) { return is_refused() ? (void *)0 : __libc_calloc(count, size); }
void *realloc(void *old, size_t size) { return is_refused() ? (void *)0 : __libc_realloc(old, size); }

/* How many of the bytes a call may move, or -1 where it fails. */
static long may_move(struct way *way, int file, size_t count) {
  if (file != way->file || count == 0) return (long)count;
  if (way->so_far < way->signals) {
    way->so_far++;
    errno = EINTR;
    return -1;
  }
  way->so_far = 0;
  if (way->left == 0) {
    errno = EIO;
    if (way->times-- > 0) return -1;
    way->left = LONG_MAX;
  }
  long most = way->left < way->piece ? way->left : way->piece;
  return (long)count < most ? (long)count : most;
}

static ssize_t moved(struct way *way, int file, long count) {
  if (file == way->file && count > 0) way->left -= count;
  return count;
}

ssize_t read(int file, void *bytes, size_t count) {
  long most = may_move(&in, file, count);
  return most < 0 ? -1 : moved(&in, file, syscall(SYS_READ, file, bytes, most));
}

ssize_t write(int file, const void *bytes, size_t count) {
  long most = may_move(&out, file, count);
  return most < 0 ? -1 : moved(&out, file, syscall(SYS_WRITE, file, bytes, most));
}

ssize_t recv(int file, void *bytes, size_t count, int flags) {
  long most = may_move(&in, file, count);
  return most < 0 ? -1 : moved(&in, file, syscall(SYS_RECVFROM, file, bytes, most, flags, (void *)0, (void *)0));
}

ssize_t send(int file, const void *bytes, size_t count, int flags) {
  long most = may_move(&out, file, count);
  return most < 0 ? -1 : moved(&out, file, syscall(SYS_SENDTO, file, bytes, most, flags, (void *)0, 0));
}

/* From now on this file is hindered, if it is the one that was meant. */
static void hinder_if(const char *what, int file) {
  if (on && !strcmp(on, what) && in.file == NOT_YET && file >= 0) in.file = out.file = file;
}

int accept4(int file, void *address, unsigned *length, int flags) {
  int accepted = (int)syscall(SYS_ACCEPT4, file, address, length, flags);
  hinder_if("connection", accepted);
  return accepted;
}

int open(const char *path, int flags, ...) {
  __builtin_va_list more;
  __builtin_va_start(more, flags);
  int file = (int)syscall(SYS_OPEN, path, flags, __builtin_va_arg(more, int));
  __builtin_va_end(more);
  opened++;
  const char *end = path + strlen(path);
  int is_new = end - path > 4 && !strcmp(end - 4, ".new");
  hinder_if(opened == 1 ? "track" : is_new ? "history" : "another", file);
  return file;
}

int close(int file) {
  if (on && file == in.file) in.file = out.file = OVER;
  return (int)syscall(SYS_CLOSE, file);
}
