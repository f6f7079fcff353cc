#define _DEFAULT_SOURCE
#include "machine.h"

#ifdef _WIN32
#include <fcntl.h>
#include <io.h>
#include <windows.h>

static void *before_call[5];

/* What is read and printed are bytes. */
__attribute__((constructor)) static void take_bytes(void) {
    _setmode(0, _O_BINARY);
    _setmode(1, _O_BINARY);
}

size_t page_size(void) {
    SYSTEM_INFO system;
    GetSystemInfo(&system);
    return system.dwPageSize;
}

uint8_t *reserved(size_t size) {
    return VirtualAlloc(NULL, size, MEM_RESERVE | MEM_COMMIT, PAGE_NOACCESS);
}

bool allow(uint8_t *at, size_t size, enum access access) {
    static const DWORD protections[] = {PAGE_NOACCESS, PAGE_READONLY, PAGE_READWRITE};
    DWORD before;
    return VirtualProtect(at, size, protections[access], &before) != 0;
}

static LONG CALLBACK leave(EXCEPTION_POINTERS *found) {
    if (found->ExceptionRecord->ExceptionCode != EXCEPTION_ACCESS_VIOLATION)
        return EXCEPTION_CONTINUE_SEARCH;
    __builtin_longjmp(before_call, 1);
}

enum ending ending_of(bool call(void *of), void *of) {
    volatile enum ending ending = FAULTS;
    void *handler = AddVectoredExceptionHandler(1, leave);
    if (!handler)
        return LOST;
    if (!__builtin_setjmp(before_call))
        ending = call(of) ? HOLDS : FAILS;
    RemoveVectoredExceptionHandler(handler);
    return ending;
}
#else
#include <signal.h>
#include <sys/mman.h>
#include <sys/wait.h>
#include <unistd.h>

size_t page_size(void) {
    return (size_t)sysconf(_SC_PAGESIZE);
}

uint8_t *reserved(size_t size) {
    void *pages = mmap(NULL, size, PROT_NONE, MAP_PRIVATE | MAP_ANONYMOUS, -1, 0);
    return pages == MAP_FAILED ? NULL : pages;
}

bool allow(uint8_t *at, size_t size, enum access access) {
    static const int protections[] = {PROT_NONE, PROT_READ, PROT_READ | PROT_WRITE};
    return mprotect(at, size, protections[access]) == 0;
}

/* The call is made in a child, which a fault ends. */
enum ending ending_of(bool call(void *of), void *of) {
    int status;
    pid_t child = fork();
    if (child == 0) {
        signal(SIGSEGV, SIG_DFL);
        _exit(call(of) ? HOLDS : FAILS);
    }
    if (child < 0 || waitpid(child, &status, 0) != child)
        return LOST;
    if (WIFSIGNALED(status))
        return WTERMSIG(status) == SIGSEGV ? FAULTS : LOST;
    return WEXITSTATUS(status) <= FAILS ? (enum ending)WEXITSTATUS(status) : LOST;
}
#endif
