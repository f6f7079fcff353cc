/* What host.c uses of macOS, for a compiler that has no SDK of it: numbers, types and names as its headers have them, for 64-bit machines. */
#ifndef FILLAQUT_APPLE_H
#define FILLAQUT_APPLE_H

#include <stddef.h>
#include <stdint.h>

typedef uint16_t mode_t;

enum { O_WRONLY = 1, O_RDWR = 2, O_APPEND = 8, O_CREAT = 0x200, O_TRUNC = 0x400, O_EXCL = 0x800, O_NOCTTY = 0x20000, O_CLOEXEC = 0x1000000 };
enum { EINVAL = 22, EAGAIN = 35, ELOOP = 62, ENAMETOOLONG = 63, ENOTEMPTY = 66 };
#define ELOOP ELOOP
enum { SIGPIPE = 13 };
#define SIG_IGN ((void (*)(int))1)
#define errno (*__error())

#if defined(__x86_64__)
#define APPLE_NAME(name, ending) __asm("_" #name ending)
#else
#define APPLE_NAME(name, ending)
#endif

struct stat {
    int32_t st_dev;
    mode_t st_mode;
    uint16_t st_nlink;
    uint64_t st_ino;
    uint32_t st_uid;
    uint32_t st_gid;
    int32_t st_rdev;
    int64_t st_times[8];
    int64_t st_size;
    int64_t st_blocks;
    int32_t st_blksize;
    uint32_t st_flags;
    uint32_t st_gen;
    int32_t st_lspare;
    int64_t st_qspare[2];
};

int *__error(void);
int open(const char *path, int flags, ...);
int close(int file);
long read(int file, void *room, size_t size);
long write(int file, const void *bytes, size_t size);
long pwrite(int file, const void *bytes, size_t size, int64_t at);
int stat(const char *path, struct stat *found) APPLE_NAME(stat, "$INODE64");
int fstat(int file, struct stat *found) APPLE_NAME(fstat, "$INODE64");
char *realpath(const char *path, char *room) APPLE_NAME(realpath, "$DARWIN_EXTSN");
int ftruncate(int file, int64_t size);
int fsync(int file);
int fchmod(int file, mode_t mode);
int unlink(const char *path);
void (*signal(int number, void (*handler)(int)))(int);
char *getenv(const char *name);
void free(void *block);
void *memcpy(void *to, const void *from, size_t size);
size_t strlen(const char *text);
char ***_NSGetEnviron(void);

#endif
