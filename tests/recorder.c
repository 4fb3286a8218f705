/* Writes down what the program that loads it asks of the files in a folder, and what it says, and has some of these calls
 * fail, as these words of its environment say. It is loaded before the C library, by tests/begin, tests/crash and tests/power.
 *
 *   RECORDER_FOLDER PATH   the folder, which is watched with all that lies in it
 *   RECORDER_LOG FILE      each call becomes a line of this file, once it is done. F is the number of an open file, -1 where there
 *                          is none, and bytes are told as digits:
 *                            open F PATH    write F AT BYTES    cut F LENGTH    sync F    lock F    mode F    close F
 *                            rename -1 PATH PATH    unlink -1 PATH
 *                            say F BYTES    (before they go to standard output or to a connection)
 *                            fail F WORD    (a call of this name that is made to fail; behind open and rename stands the path)
 *   RECORDER_CALL N        the N-th of the calls on the folder fails, and no other; those that close are not counted
 *   RECORDER_HALF 1        if that is a write, half of its bytes are written all the same
 *   RECORDER_KILL 1        the program is killed there, in place of that call
 *   RECORDER_BYTES N       writes to the folder fail once N bytes were written
 *   RECORDER_ERROR N       calls that fail give this number of the system, and else 5, which is EIO
 */
/* It includes no file, so that any compiler for Linux on x86-64 will do. */
typedef __SIZE_TYPE__ size_t;
typedef long ssize_t;
enum { EIO = 5, O_WRONLY = 1, O_CREAT = 64, O_TRUNC = 512, O_APPEND = 1024, SEEK_CUR = 1, SIGKILL = 9, FILES = 4096 };
enum { SYS_WRITE = 1, SYS_OPEN = 2, SYS_CLOSE = 3, SYS_LSEEK = 8, SYS_PWRITE = 18, SYS_YIELD = 24, SYS_GETPID = 39, SYS_SENDTO = 44,
       SYS_KILL = 62, SYS_FLOCK = 73, SYS_FSYNC = 74, SYS_FDATASYNC = 75, SYS_FTRUNCATE = 77, SYS_RENAME = 82, SYS_UNLINK = 87,
       SYS_FCHMOD = 91, SYS_ACCEPT4 = 288 };
#define LONG_MAX __LONG_MAX__
#define errno (*__errno_location())
extern int *__errno_location(void);
extern char *getenv(const char *);
extern long atol(const char *);
extern int strncmp(const char *, const char *, size_t);
extern size_t strlen(const char *);
extern long syscall(long, ...);

struct part { const char *bytes; size_t count; };
struct message { void *name; unsigned name_length; struct part *parts; size_t count; };
enum kind { UNWATCHED, OF_THE_FOLDER, SPEAKING };

static const char *folder;
static int log_file = -1;
static long calls, call_to_fail, bytes_left;
static int writes_half, is_killed, error_told;
static unsigned char kinds[FILES];
static int is_noting;

static long number(const char *name, long otherwise) {
  const char *word = getenv(name);
  return word ? atol(word) : otherwise;
}

__attribute__((constructor)) static void begin(void) {
  const char *log = getenv("RECORDER_LOG");
  folder = getenv("RECORDER_FOLDER");
  if (log) log_file = (int)syscall(SYS_OPEN, log, O_WRONLY | O_CREAT | O_TRUNC | O_APPEND, 0600);
  call_to_fail = number("RECORDER_CALL", 0);
  bytes_left = number("RECORDER_BYTES", LONG_MAX);
  writes_half = number("RECORDER_HALF", 0) != 0;
  is_killed = number("RECORDER_KILL", 0) != 0;
  error_told = (int)number("RECORDER_ERROR", EIO);
  kinds[1] = SPEAKING;
}

/* ---- the log: one thread at a time writes a line of it */

static char page[4096];
static size_t on_page;

static void flush(void) {
  for (size_t done = 0; log_file >= 0 && done < on_page;) done += (size_t)syscall(SYS_WRITE, log_file, page + done, on_page - done);
  on_page = 0;
}

static void put(char letter) {
  if (on_page == sizeof page) flush();
  page[on_page++] = letter;
}

static void put_text(const char *text) {
  put(' ');
  while (*text) put(*text++);
}

static void put_digits(long value) {
  if (value > 9) put_digits(value / 10);
  put((char)('0' + value % 10));
}

static void put_number(long value) {
  put(' ');
  if (value < 0) put('-');
  put_digits(value < 0 ? -value : value);
}

static void put_bytes(const char *bytes, size_t count) {
  put(' ');
  for (size_t at = 0; at < count; at++) {
    put("0123456789abcdef"[(unsigned char)bytes[at] >> 4]);
    put("0123456789abcdef"[bytes[at] & 15]);
  }
}

static void begin_line(const char *word, int file) {
  while (__atomic_exchange_n(&is_noting, 1, __ATOMIC_ACQUIRE)) syscall(SYS_YIELD);
  while (*word) put(*word++);
  put_number(file);
}

static void end_line(void) {
  put('\n');
  flush();
  __atomic_store_n(&is_noting, 0, __ATOMIC_RELEASE);
}

static void note(const char *word, int file, const char *text, const char *more) {
  begin_line(word, file);
  if (text) put_text(text);
  if (more) put_text(more);
  end_line();
}

static void note_cut(int file, long length) {
  begin_line("cut", file);
  put_number(length);
  end_line();
}

static void note_write(int file, long at, const char *bytes, size_t count) {
  begin_line("write", file);
  put_number(at);
  put_bytes(bytes, count);
  end_line();
}

static void note_said(int file, const char *bytes, size_t count) {
  begin_line("say", file);
  put_bytes(bytes, count);
  end_line();
}

/* ---- what is watched, and what fails */

static enum kind kind_of(int file) { return file >= 0 && file < FILES ? kinds[file] : UNWATCHED; }

static void set_kind(int file, enum kind kind) {
  if (file >= 0 && file < FILES) kinds[file] = (unsigned char)kind;
}

static int is_in_folder(const char *path) {
  size_t length = folder ? strlen(folder) : 0;
  return length && !strncmp(path, folder, length) && (path[length] == '/' || !path[length]);
}

/* Whether a call of this name, on a file or a path, has to fail, as it is the N-th or for another reason. */
static int fails_on(const char *word, int file, const char *path, int has_reason) {
  int is_due = __atomic_add_fetch(&calls, 1, __ATOMIC_SEQ_CST) == call_to_fail || has_reason;
  if (!is_due) return 0;
  if (is_killed) syscall(SYS_KILL, syscall(SYS_GETPID), SIGKILL);
  note("fail", file, word, path);
  errno = error_told;
  return 1;
}

static int fails(const char *word, int file, int has_reason) { return fails_on(word, file, (void *)0, has_reason); }

static int sync(int file, long how) {
  if (kind_of(file) != OF_THE_FOLDER) return (int)syscall(how, file);
  if (fails("sync", file, 0)) return -1;
  int answer = (int)syscall(how, file);
  if (!answer) note("sync", file, (void *)0, (void *)0);
  return answer;
}

int fsync(int file) { return sync(file, SYS_FSYNC); }
int fdatasync(int file) { return sync(file, SYS_FDATASYNC); }

int ftruncate(int file, long length) {
  if (kind_of(file) != OF_THE_FOLDER) return (int)syscall(SYS_FTRUNCATE, file, length);
  if (fails("cut", file, 0)) return -1;
  int answer = (int)syscall(SYS_FTRUNCATE, file, length);
  if (!answer) note_cut(file, length);
  return answer;
}

int fchmod(int file, unsigned mode) {
  if (kind_of(file) != OF_THE_FOLDER) return (int)syscall(SYS_FCHMOD, file, mode);
  if (fails("mode", file, 0)) return -1;
  int answer = (int)syscall(SYS_FCHMOD, file, mode);
  if (!answer) note("mode", file, (void *)0, (void *)0);
  return answer;
}

int flock(int file, int how) {
  if (kind_of(file) != OF_THE_FOLDER) return (int)syscall(SYS_FLOCK, file, how);
  if (fails("lock", file, 0)) return -1;
  int answer = (int)syscall(SYS_FLOCK, file, how);
  if (!answer) note("lock", file, (void *)0, (void *)0);
  return answer;
}

int rename(const char *from, const char *to) {
  if (!is_in_folder(from) && !is_in_folder(to)) return (int)syscall(SYS_RENAME, from, to);
  if (fails_on("rename", -1, from, 0)) return -1;
  int answer = (int)syscall(SYS_RENAME, from, to);
  if (!answer) note("rename", -1, from, to);
  return answer;
}

int unlink(const char *path) {
  if (!is_in_folder(path)) return (int)syscall(SYS_UNLINK, path);
  if (fails("unlink", -1, 0)) return -1;
  int answer = (int)syscall(SYS_UNLINK, path);
  if (!answer) note("unlink", -1, path, (void *)0);
  return answer;
}

/* ---- writes */

static ssize_t write_at(int file, const char *bytes, size_t count, long at) {
  return at < 0 ? syscall(SYS_WRITE, file, bytes, count) : syscall(SYS_PWRITE, file, bytes, count, at);
}

/* Writes to a file of the folder, at a place or where it stands, as far as no fault is in the way. */
static ssize_t written(int file, const char *bytes, size_t count, long at) {
  int is_failing = fails("write", file, bytes_left == 0);
  if (is_failing) count = writes_half ? count / 2 : 0;
  if ((long)count > bytes_left) count = (size_t)bytes_left;
  ssize_t moved = count ? write_at(file, bytes, count, at) : 0;
  if (moved > 0) {
    bytes_left -= moved;
    note_write(file, at < 0 ? syscall(SYS_LSEEK, file, 0, SEEK_CUR) - moved : at, bytes, (size_t)moved);
  }
  if (is_failing) errno = error_told;
  return is_failing ? -1 : moved;
}

ssize_t write(int file, const void *bytes, size_t count) {
  if (kind_of(file) == OF_THE_FOLDER && count) return written(file, bytes, count, -1);
  if (kind_of(file) == SPEAKING) note_said(file, bytes, count);
  return syscall(SYS_WRITE, file, bytes, count);
}

ssize_t pwrite(int file, const void *bytes, size_t count, long at) {
  if (kind_of(file) == OF_THE_FOLDER && count) return written(file, bytes, count, at);
  return syscall(SYS_PWRITE, file, bytes, count, at);
}

ssize_t send(int file, const void *bytes, size_t count, int flags) {
  if (kind_of(file) == SPEAKING) note_said(file, bytes, count);
  return syscall(SYS_SENDTO, file, bytes, count, flags, (void *)0, 0);
}

/* Of several parts the first one that has bytes is written, as may be done at any time. */
static struct part first_of(const struct part *parts, size_t count) {
  for (size_t at = 0; at < count; at++)
    if (parts[at].count) return parts[at];
  return (struct part){"", 0};
}

ssize_t writev(int file, const struct part *parts, int count) {
  struct part first = first_of(parts, (size_t)count);
  return write(file, first.bytes, first.count);
}

ssize_t sendmsg(int file, const struct message *message, int flags) {
  struct part first = first_of(message->parts, message->count);
  return send(file, first.bytes, first.count, flags);
}

/* ---- what is opened and closed */

int open(const char *path, int flags, ...) {
  __builtin_va_list more;
  __builtin_va_start(more, flags);
  int mode = __builtin_va_arg(more, int), is_watched = is_in_folder(path);
  __builtin_va_end(more);
  if (is_watched && fails_on("open", -1, path, 0)) return -1;
  int file = (int)syscall(SYS_OPEN, path, flags, mode);
  set_kind(file, is_watched ? OF_THE_FOLDER : UNWATCHED);
  if (is_watched && file >= 0) note("open", file, path, (void *)0);
  if (is_watched && file >= 0 && flags & O_TRUNC) note_cut(file, 0);
  return file;
}

int accept4(int file, void *address, unsigned *length, int flags) {
  int accepted = (int)syscall(SYS_ACCEPT4, file, address, length, flags);
  set_kind(accepted, SPEAKING);
  return accepted;
}

int close(int file) {
  if (kind_of(file) == OF_THE_FOLDER) note("close", file, (void *)0, (void *)0);
  set_kind(file, UNWATCHED);
  return (int)syscall(SYS_CLOSE, file);
}

/* The same calls by the names that they have for long files. */
int open64(const char *path, int flags, ...) __attribute__((alias("open")));
ssize_t pwrite64(int file, const void *bytes, size_t count, long at) __attribute__((alias("pwrite")));
int ftruncate64(int file, long length) __attribute__((alias("ftruncate")));
