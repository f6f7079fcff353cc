/* What the program fillaqut asks of the system, as Linux on x86-64 answers it, for other systems and machines: its words, its environment,
 * files by names in UTF-8, and the numbers of errors. packages/platforms/program links it with the code that is proved, whose calls of
 * the C library are named host_.. there, and whose main is proved_main.
 *
 * Streams are bytes everywhere. Under Windows names of files are UTF-16 inside, paths are answered with "/", a folder may be opened, and
 * nothing is said of who may read a file.
 */
#include <stdarg.h>
#if defined(__APPLE__)
#include "apple.h"
#else
#if !defined(_WIN32)
#define _XOPEN_SOURCE 700
#endif
#include <errno.h>
#include <fcntl.h>
#include <signal.h>
#include <stdint.h>
#include <stdlib.h>
#include <string.h>
#include <sys/stat.h>
#if defined(_WIN32)
#include <io.h>
#include <windows.h>
#else
#include <unistd.h>
#endif
#endif

/* Linux's numbers, which the code has. */
enum {
    LINUX_WRITE_ONLY = 1,
    LINUX_READ_WRITE = 2,
    LINUX_CREATE = 0100,
    LINUX_EXCLUSIVE = 0200,
    LINUX_NO_TERMINAL = 0400,
    LINUX_TRUNCATE = 01000,
    LINUX_APPEND = 02000,
    LINUX_CLOSE_ON_EXEC = 02000000,
    LINUX_EMPTY_PATH = 0x1000
};
enum { LINUX_EAGAIN = 11, LINUX_ENAMETOOLONG = 36, LINUX_ENOTEMPTY = 39, LINUX_ELOOP = 40, LINUX_ERANGE = 34, LINUX_EIO = 5 };

enum { PATH_SIZE = 4096, MOST = 1 << 20 };

/* The front of Linux's struct statx, whose other fields the program doesn't read. */
struct linux_statx {
    uint32_t mask;
    uint32_t block_size;
    uint64_t attributes;
    uint32_t links;
    uint32_t user;
    uint32_t group;
    uint16_t mode;
    uint16_t spare;
    uint64_t inode;
    uint64_t size;
};

int32_t proved_main(void);

static char **words;
static size_t word_count;

/* ---- errors ---- */

int32_t rattle_errno(void) {
    int found = errno;
    if (found == EAGAIN) return LINUX_EAGAIN;
    if (found == ENAMETOOLONG) return LINUX_ENAMETOOLONG;
    if (found == ENOTEMPTY) return LINUX_ENOTEMPTY;
#if defined(ELOOP)
    if (found == ELOOP) return LINUX_ELOOP;
#endif
    return found >= 0 && found <= LINUX_ERANGE && found != LINUX_EAGAIN ? found : LINUX_EIO;
}

void rattle_set_errno(int32_t error) { errno = error; }

/* ---- words and the environment ---- */

/* Puts a text in the room and answers its length; -1 where there is none, -2 where it does not fit, and then the room is full. */
static int64_t put(const char *text, char *room, uint64_t size) {
    size_t length;
    if (!text) return -1;
    length = strlen(text);
    memcpy(room, text, length < size ? length : size);
    return length <= size ? (int64_t)length : -2;
}

uint64_t rattle_arg_count(void) { return word_count; }

int64_t rattle_arg(uint64_t at, char *room, uint64_t size) { return put(at < word_count ? words[at] : NULL, room, size); }

int64_t rattle_env(const char *name, char *room, uint64_t size) { return put(getenv(name), room, size); }

#if defined(_WIN32)
static char **host_environment(void) { return _environ; }
#elif defined(__APPLE__)
static char **host_environment(void) { return *_NSGetEnviron(); }
#else
extern char **environ;
static char **host_environment(void) { return environ; }
#endif

int64_t rattle_env_at(uint64_t at, char *room, uint64_t size) {
    char **entries = host_environment();
    uint64_t before;
    for (before = 0; entries && entries[before]; before++)
        if (before == at) return put(entries[at], room, size);
    return -1;
}

/* ---- files ---- */

/* Linux's flags as those of this system; -1 where there is another one. */
static int host_flags(int32_t flags) {
    static const struct {
        int32_t theirs;
        int ours;
    } known[] = {
        {LINUX_WRITE_ONLY, O_WRONLY}, {LINUX_READ_WRITE, O_RDWR},   {LINUX_CREATE, O_CREAT}, {LINUX_EXCLUSIVE, O_EXCL},
        {LINUX_TRUNCATE, O_TRUNC},    {LINUX_APPEND, O_APPEND},
#if defined(_WIN32)
        {LINUX_CLOSE_ON_EXEC, _O_NOINHERIT}, {LINUX_NO_TERMINAL, 0},
#else
        {LINUX_CLOSE_ON_EXEC, O_CLOEXEC}, {LINUX_NO_TERMINAL, O_NOCTTY},
#endif
    };
    int made = 0;
    size_t at;
    for (at = 0; at < sizeof known / sizeof *known; at++)
        if (flags & known[at].theirs) {
            made |= known[at].ours;
            flags &= ~known[at].theirs;
        }
    return flags ? -1 : made;
}

static int opened(const char *path, int flags, unsigned mode);

int32_t host_open(const char *path, int32_t flags, ...) {
    int ours = host_flags(flags);
    unsigned mode = 0;
    if (flags & LINUX_CREATE) {
        va_list rest;
        va_start(rest, flags);
        mode = va_arg(rest, unsigned);
        va_end(rest);
    }
    if (ours < 0) {
        errno = EINVAL;
        return -1;
    }
    return opened(path, ours, mode);
}

static int32_t put_stat(int status, uint32_t mode, uint64_t size, struct linux_statx *room) {
    if (status < 0) return -1;
    room->mode = (uint16_t)mode;
    room->size = size;
    return 0;
}

/* A call takes so many bytes at most, as those of Windows do. */
static unsigned part(uint64_t size) { return size < MOST ? (unsigned)size : MOST; }

#if defined(_WIN32)

/* A name of a file as Windows has it. */
static int wide(const char *path, wchar_t *room) {
    if (MultiByteToWideChar(CP_UTF8, MB_ERR_INVALID_CHARS, path, -1, room, PATH_SIZE)) return 1;
    errno = ENOENT;
    return 0;
}

static int is_folder(int file) {
    BY_HANDLE_FILE_INFORMATION about;
    return GetFileInformationByHandle((HANDLE)_get_osfhandle(file), &about) && (about.dwFileAttributes & FILE_ATTRIBUTE_DIRECTORY);
}

static HANDLE handle_of(const wchar_t *path, DWORD access) {
    return CreateFileW(path, access, FILE_SHARE_READ | FILE_SHARE_WRITE | FILE_SHARE_DELETE, NULL, OPEN_EXISTING, FILE_FLAG_BACKUP_SEMANTICS, NULL);
}

static int opened(const char *path, int flags, unsigned mode) {
    wchar_t name[PATH_SIZE];
    DWORD found;
    (void)mode;
    if (!wide(path, name)) return -1;
    found = GetFileAttributesW(name);
    if (found != INVALID_FILE_ATTRIBUTES && (found & FILE_ATTRIBUTE_DIRECTORY) && !(flags & O_CREAT)) {
        HANDLE folder = flags & (O_WRONLY | O_RDWR) ? INVALID_HANDLE_VALUE : handle_of(name, GENERIC_READ);
        if (folder != INVALID_HANDLE_VALUE) return _open_osfhandle((intptr_t)folder, 0);
        errno = flags & (O_WRONLY | O_RDWR) ? EISDIR : EACCES;
        return -1;
    }
    return _wopen(name, flags | _O_BINARY, _S_IREAD | _S_IWRITE);
}

int64_t host_read(int32_t file, void *room, uint64_t size) {
    if (!is_folder(file)) return _read(file, room, part(size));
    errno = EISDIR;
    return -1;
}

int64_t host_write(int32_t file, const void *bytes, uint64_t size) { return _write(file, bytes, part(size)); }

int64_t host_pwrite(int32_t file, const void *bytes, uint64_t size, int64_t at) {
    int64_t before = _lseeki64(file, 0, SEEK_CUR), written;
    if (before < 0 || _lseeki64(file, at, SEEK_SET) < 0) return -1;
    written = _write(file, bytes, part(size));
    return _lseeki64(file, before, SEEK_SET) < 0 ? -1 : written;
}

int32_t host_close(int32_t file) { return _close(file); }

int32_t host_statx(int32_t file, const char *path, int32_t flags, int32_t mask, struct linux_statx *room) {
    struct _stat64 found;
    wchar_t name[PATH_SIZE];
    (void)mask;
    if (flags & LINUX_EMPTY_PATH) {
        int status = _fstat64(file, &found);
        return put_stat(status, is_folder(file) ? S_IFDIR : found.st_mode, (uint64_t)found.st_size, room);
    }
    return wide(path, name) ? put_stat(_wstat64(name, &found), found.st_mode, (uint64_t)found.st_size, room) : -1;
}

char *host_realpath(const char *path, char *room) {
    wchar_t name[PATH_SIZE];
    wchar_t *from = name;
    HANDLE file;
    DWORD length;
    char *at;
    if (!wide(path, name)) return NULL;
    file = handle_of(name, 0);
    length = file == INVALID_HANDLE_VALUE ? 0 : GetFinalPathNameByHandleW(file, name, PATH_SIZE, FILE_NAME_NORMALIZED);
    if (file != INVALID_HANDLE_VALUE) CloseHandle(file);
    if (!length || length >= PATH_SIZE) {
        errno = length ? ENAMETOOLONG : ENOENT;
        return NULL;
    }
    if (!wcsncmp(name, L"\\\\?\\UNC\\", 8)) {
        from = name + 6;
        *from = L'\\';
    } else if (!wcsncmp(name, L"\\\\?\\", 4)) {
        from = name + 4;
    }
    if (!WideCharToMultiByte(CP_UTF8, 0, from, -1, room, PATH_SIZE, NULL, NULL)) {
        errno = ENAMETOOLONG;
        return NULL;
    }
    for (at = room; *at; at++)
        if (*at == '\\') *at = '/';
    return room;
}

int32_t host_ftruncate(int32_t file, int64_t size) {
    errno_t error = _chsize_s(file, size);
    if (error) errno = error;
    return error ? -1 : 0;
}

int32_t host_fsync(int32_t file) { return is_folder(file) ? 0 : _commit(file); }

int32_t host_fchmod(int32_t file, uint32_t mode) {
    (void)file;
    (void)mode;
    return 0;
}

int32_t host_flock(int32_t file, int32_t how) {
    (void)file;
    (void)how;
    return 0;
}

int32_t host_unlink(const char *path) {
    wchar_t name[PATH_SIZE];
    return wide(path, name) ? _wunlink(name) : -1;
}

int64_t host___sysv_signal(int32_t signal, int64_t how) {
    (void)signal;
    (void)how;
    return 0;
}

/* One word in UTF-8, which lives as long as the program. Half of a pair of surrogates, which has no UTF-8, becomes a byte that is none. */
static char *narrow(const wchar_t *word) {
    int size = WideCharToMultiByte(CP_UTF8, WC_ERR_INVALID_CHARS, word, -1, NULL, 0, NULL, NULL);
    char *made = malloc(size ? (size_t)size : 2);
    if (made && size) WideCharToMultiByte(CP_UTF8, 0, word, -1, made, size, NULL, NULL);
    if (made && !size) memcpy(made, "\xff", 2);
    return made;
}

int _dowildcard = 0;

int wmain(int count, wchar_t **given) {
    int at;
    for (at = 0; at < 3; at++) _setmode(at, _O_BINARY);
    words = calloc((size_t)count + 1, sizeof *words);
    if (!words) return 3;
    for (at = 0; at < count; at++)
        if (!(words[at] = narrow(given[at]))) return 3;
    word_count = (size_t)count;
    return proved_main();
}

#else

static int opened(const char *path, int flags, unsigned mode) { return open(path, flags, (mode_t)mode); }

int64_t host_read(int32_t file, void *room, uint64_t size) { return read(file, room, part(size)); }

int64_t host_write(int32_t file, const void *bytes, uint64_t size) { return write(file, bytes, part(size)); }

int64_t host_pwrite(int32_t file, const void *bytes, uint64_t size, int64_t at) { return pwrite(file, bytes, part(size), at); }

int32_t host_close(int32_t file) { return close(file); }

int32_t host_statx(int32_t file, const char *path, int32_t flags, int32_t mask, struct linux_statx *room) {
    struct stat found;
    int status = flags & LINUX_EMPTY_PATH ? fstat(file, &found) : stat(path, &found);
    (void)mask;
    return put_stat(status, status < 0 ? 0 : (uint32_t)found.st_mode, status < 0 ? 0 : (uint64_t)found.st_size, room);
}

char *host_realpath(const char *path, char *room) {
    char *found = realpath(path, NULL);
    size_t size = found ? strlen(found) + 1 : 0;
    if (!found) return NULL;
    if (size <= PATH_SIZE) memcpy(room, found, size);
    free(found);
    if (size <= PATH_SIZE) return room;
    errno = ENAMETOOLONG;
    return NULL;
}

int32_t host_ftruncate(int32_t file, int64_t size) { return ftruncate(file, size); }

int32_t host_fsync(int32_t file) { return fsync(file); }

int32_t host_fchmod(int32_t file, uint32_t mode) { return fchmod(file, (mode_t)mode); }

/* No command locks a file. */
int32_t host_flock(int32_t file, int32_t how) {
    (void)file;
    (void)how;
    errno = EINVAL;
    return -1;
}

int32_t host_unlink(const char *path) { return unlink(path); }

/* A pipe that nobody reads is an error of write, and no end of the program. */
int64_t host___sysv_signal(int32_t number, int64_t how) {
    (void)number;
    (void)how;
    signal(SIGPIPE, SIG_IGN);
    return 0;
}

int main(int count, char **given) {
    words = given;
    word_count = (size_t)count;
    return proved_main();
}

#endif

int32_t host_fdatasync(int32_t file) { return host_fsync(file); }
