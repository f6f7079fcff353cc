/* A library to be preloaded: it refuses requests for memory and lets reads and writes fail, as the environment asks, and
 * tells at the end how many there were.
 *
 *   FAULTS_REFUSE=N        the N-th request for memory is refused
 *   FAULTS_REFUSE_FROM=N   it and all later ones are
 *   FAULTS_READ_FAIL=N     the N-th read of descriptor 0 fails
 *   FAULTS_READ_SHORT=N    the N-th read gives one byte
 *   FAULTS_READ_SIZE=N     each read gives at most N bytes
 *   FAULTS_READ_FIRST=N    the first read gives at most N bytes
 *   FAULTS_FILE_FAIL=N     the N-th read of another descriptor fails
 *   FAULTS_OPEN_FAIL=N     the N-th file that is opened to be read is not
 *   FAULTS_ENDLESS=N       each read gives N bytes `x`
 *   FAULTS_WRITE_FAIL=N    the N-th write to descriptor 1 fails
 *   FAULTS_WRITE_SHORT=N   the N-th write takes one byte
 *   FAULTS_WRITE_SIZE=N    each write takes at most N bytes, also one to a file
 *   FAULTS_STEP_FAIL=N     the N-th step that replaces a file fails: opening one to be written, writing to it, cutting it to a length,
 *                          or bringing it to the disk
 *   FAULTS_STEP_FROM=N     it and all later ones do
 *   FAULTS_STEP_KILL=N     the program is killed before it
 *   FAULTS_CHANGE=FILE     this file gets one more byte when a file is first brought to the disk
 *   FAULTS_ERROR_FAIL=N    the N-th write to descriptor 2 fails
 *   FAULTS_ERRNO=N         the errno of what fails; 0: it moves no byte, and is no error
 *   FAULTS_TELL=N          the descriptor on which it tells
 *   FAULTS_SERVE=N         the program is run once for each message on the socket N, which names what is asked of this run, as above and
 *                          with tabs between, and is answered by its wait status. What the run prints and tells replaces what is in the
 *                          files of its descriptors. So a run needs no program to be loaded
 */
#define _GNU_SOURCE
#include <errno.h>
#include <fcntl.h>
#include <signal.h>
#include <stdarg.h>
#include <stddef.h>
#include <stdio.h>
#include <stdlib.h>
#include <string.h>
#include <sys/syscall.h>
#include <sys/wait.h>
#include <unistd.h>

extern void *__libc_malloc(size_t);
extern void *__libc_calloc(size_t, size_t);
extern void *__libc_realloc(void *, size_t);
extern void *__libc_memalign(size_t, size_t);
extern void __libc_free(void *);

/* what the environment asks for */
static long refuse, refuse_from, read_fail, read_size, read_first, read_short, file_fail, open_fail, endless;
static long write_fail, write_size, write_short, error_fail, step_fail, step_from, step_kill, fail_errno, tell;
static const char *change;

/* how many there were, blocks that were not freed among it, and how many bytes the last request was for */
static long requests, refused, live, last_size, reads, file_reads, opened, writes, errors, steps;

/* the requests up to the line `ready`, to the first read and to the first write to descriptor 2 */
static long at_ready = -1, at_first_read = -1, at_first_error = -1;

static long asked(const char *name) {
  const char *value = getenv(name);
  return value ? atol(value) : 0;
}

static void read_asked(void) {
  refuse = asked("FAULTS_REFUSE"), refuse_from = asked("FAULTS_REFUSE_FROM");
  read_fail = asked("FAULTS_READ_FAIL"), read_size = asked("FAULTS_READ_SIZE");
  read_short = asked("FAULTS_READ_SHORT"), read_first = asked("FAULTS_READ_FIRST");
  file_fail = asked("FAULTS_FILE_FAIL"), open_fail = asked("FAULTS_OPEN_FAIL"), endless = asked("FAULTS_ENDLESS");
  write_fail = asked("FAULTS_WRITE_FAIL"), write_size = asked("FAULTS_WRITE_SIZE");
  write_short = asked("FAULTS_WRITE_SHORT"), error_fail = asked("FAULTS_ERROR_FAIL");
  step_fail = asked("FAULTS_STEP_FAIL"), step_from = asked("FAULTS_STEP_FROM"), step_kill = asked("FAULTS_STEP_KILL");
  change = getenv("FAULTS_CHANGE");
  fail_errno = asked("FAULTS_ERRNO"), tell = asked("FAULTS_TELL");
  requests = refused = live = 0;
}

/* What a run begins with: its input from the start, and nothing printed or told. */
static void rewind_files(void) {
  int files[] = {0, 1, 2, (int)tell};
  for (int i = 0; i < 4; i++) {
    lseek(files[i], 0, SEEK_SET);
    if (files[i] != 0)
      syscall(SYS_ftruncate, files[i], (off_t)0);
  }
}

/* Returns in a new process for each message, with what it asks for in the environment, and never in this one. */
static void serve(int messages) {
  static char message[4096];
  for (;;) {
    ssize_t length = syscall(SYS_read, messages, message, sizeof message - 1);
    if (length <= 0)
      _exit(0);
    message[length] = 0;
    pid_t child = fork();
    if (!child)
      break;
    int status;
    if (waitpid(child, &status, 0) != child || syscall(SYS_write, messages, &status, sizeof status) != sizeof status)
      _exit(1);
  }
  close(messages);
  rewind_files();
  for (char *word = strtok(message, "\t"); word; word = strtok(NULL, "\t"))
    putenv(word);
}

__attribute__((constructor)) static void begin(void) {
  read_asked();
  int messages = (int)asked("FAULTS_SERVE");
  if (!messages)
    return;
  serve(messages);
  read_asked();
}

__attribute__((destructor)) static void end(void) {
  char text[400];
  int length = snprintf(text, sizeof text,
                        "requests %ld\nrefused %ld\nlive %ld\nlast_size %ld\nreads %ld\nwrites %ld\nerrors %ld\nsteps %ld\n"
                        "at_ready %ld\nat_first_read %ld\nat_first_error %ld\n",
                        requests, refused, live, last_size, reads, writes, errors, steps, at_ready, at_first_read, at_first_error);
  if (tell > 0)
    syscall(SYS_write, tell, text, (size_t)length);
}

/* Counts a request for so many bytes, and says whether it is refused. */
static int is_refused(size_t size) {
  requests++;
  last_size = (long)size;
  if (requests != refuse && (!refuse_from || requests < refuse_from))
    return 0;
  refused++;
  errno = ENOMEM;
  return 1;
}

static void *counted(void *block) {
  live += block != NULL;
  return block;
}

void *malloc(size_t size) { return is_refused(size) ? NULL : counted(__libc_malloc(size)); }

void *calloc(size_t count, size_t size) {
  return is_refused(count * size) ? NULL : counted(__libc_calloc(count, size));
}

void *aligned_alloc(size_t alignment, size_t size) {
  return is_refused(size) ? NULL : counted(__libc_memalign(alignment, size));
}

void *memalign(size_t alignment, size_t size) { return aligned_alloc(alignment, size); }

int posix_memalign(void **block, size_t alignment, size_t size) {
  void *found = aligned_alloc(alignment, size);
  if (found)
    *block = found;
  return found ? 0 : ENOMEM;
}

void *realloc(void *block, size_t size) {
  if (!block)
    return malloc(size);
  if (is_refused(size))
    return NULL;
  void *moved = __libc_realloc(block, size);
  live -= !moved && !size;
  return moved;
}

void free(void *block) {
  live -= block != NULL;
  __libc_free(block);
}

static ssize_t failed(void) {
  errno = (int)fail_errno;
  return fail_errno ? -1 : 0;
}

/* Counts a step that replaces a file, and says whether it fails. */
static int step_fails(void) {
  if (++steps == step_kill)
    raise(SIGKILL);
  return steps == step_fail || (step_from && steps >= step_from);
}

/* How many bytes one call may move. */
static size_t moved(long call, long short_call, long most, size_t size) {
  if (call == short_call && size > 1)
    return 1;
  return most && size > (size_t)most ? (size_t)most : size;
}

ssize_t read(int from, void *bytes, size_t size) {
  if (from != 0)
    return ++file_reads == file_fail ? failed() : syscall(SYS_read, from, bytes, size);
  if (!reads++)
    at_first_read = requests;
  if (reads == read_fail)
    return failed();
  if (endless) {
    size = size > (size_t)endless ? (size_t)endless : size;
    memset(bytes, 'x', size);
    return (ssize_t)size;
  }
  long most = reads == 1 && read_first ? read_first : read_size;
  return syscall(SYS_read, from, bytes, moved(reads, read_short, most, size));
}

ssize_t write(int to, const void *bytes, size_t size) {
  if (to == 2) {
    if (!errors++)
      at_first_error = requests;
    return errors == error_fail ? failed() : syscall(SYS_write, to, bytes, size);
  }
  if (to != 1)
    return step_fails() ? failed() : syscall(SYS_write, to, bytes, moved(0, -1, write_size, size));
  if (at_ready < 0 && size == 6 && !memcmp(bytes, "ready\n", 6))
    at_ready = requests;
  if (++writes == write_fail)
    return failed();
  return syscall(SYS_write, to, bytes, moved(writes, write_short, write_size, size));
}

/* the name by which the C library's own parts, and what is linked with them, write */
ssize_t __write(int to, const void *bytes, size_t size) { return write(to, bytes, size); }

int open(const char *path, int flags, ...) {
  va_list more;
  va_start(more, flags);
  int mode = flags & O_CREAT ? va_arg(more, int) : 0;
  va_end(more);
  int fails = (flags & O_ACCMODE) == O_RDONLY ? ++opened == open_fail : step_fails();
  if (fails)
    return (int)failed();
  return (int)syscall(SYS_openat, AT_FDCWD, path, flags, mode);
}

ssize_t pwrite(int to, const void *bytes, size_t size, off_t at) {
  return step_fails() ? failed() : syscall(SYS_pwrite64, to, bytes, moved(0, -1, write_size, size), at);
}

int ftruncate(int file, off_t size) { return step_fails() ? (int)failed() : (int)syscall(SYS_ftruncate, file, size); }

/* Gives the file that is asked for one more byte. */
static void change_once(void) {
  int file = change ? (int)syscall(SYS_openat, AT_FDCWD, change, O_WRONLY | O_APPEND) : -1;
  change = NULL;
  if (file < 0)
    return;
  syscall(SYS_write, file, "\n", 1);
  close(file);
}

int fsync(int file) {
  change_once();
  return step_fails() ? (int)failed() : (int)syscall(SYS_fsync, file);
}
