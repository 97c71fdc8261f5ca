// Stands before the C library's calls that ask for memory, and that open, read, write, cut or sync a file, and counts those that fail:
// requests for memory that are refused, and failures of anything that is not a socket. (That a path has no file, or another kind of file,
// or may not be used, is no failure of the disk.)
// The count is the first 8 bytes of the file that CAUSES names, which the script reads while the program runs:
//
//     cc -O1 -Wall -Wextra -Werror -shared -fPIC -o causes.so tools/causes.c -ldl
//     CAUSES=FILE LD_PRELOAD=./causes.so:OTHERS PROGRAM ..
//
// It stands before OTHERS, so what they let fail is counted too.
#define _GNU_SOURCE
#include <dlfcn.h>
#include <errno.h>
#include <fcntl.h>
#include <stdarg.h>
#include <stdint.h>
#include <stdio.h>
#include <stdlib.h>
#include <sys/mman.h>
#include <sys/stat.h>
#include <sys/syscall.h>
#include <unistd.h>

static uint64_t *causes;

// (by calls of the system, so that nobody else stands before them; the descriptor is closed, since it may be that of a standard stream)
static void __attribute__((constructor)) begin(void) {
  const char *path = getenv("CAUSES");
  if (!path) return;
  int file = syscall(SYS_openat, AT_FDCWD, path, O_RDWR | O_CLOEXEC);
  void *place = file < 0 ? MAP_FAILED : mmap(NULL, sizeof *causes, PROT_READ | PROT_WRITE, MAP_SHARED, file, 0);
  if (place == MAP_FAILED) {
    perror("CAUSES");
    _exit(98);
  }
  syscall(SYS_close, file);
  causes = place;
}

static void count(void) {
  if (causes) __atomic_add_fetch(causes, 1, __ATOMIC_SEQ_CST);
}

static void count_of(int file) {
  int why = errno;
  struct stat found;
  if (syscall(SYS_fstat, file, &found) || !S_ISSOCK(found.st_mode)) count();
  errno = why;
}

#define REAL(name) \
  static __typeof__(name) *real; \
  if (!real) real = (__typeof__(name) *)dlsym(RTLD_NEXT, #name)

void *malloc(size_t size) {
  REAL(malloc);
  void *place = real(size);
  if (!place && size) count();
  return place;
}

void *realloc(void *old, size_t size) {
  REAL(realloc);
  void *place = real(old, size);
  if (!place && size) count();
  return place;
}

void *aligned_alloc(size_t align, size_t size) {
  REAL(aligned_alloc);
  void *place = real(align, size);
  if (!place && size) count();
  return place;
}

int posix_memalign(void **place, size_t align, size_t size) {
  REAL(posix_memalign);
  int failed = real(place, align, size);
  if (failed) count();
  return failed;
}

#define COUNTED(type, name, words, given) \
  type name words { \
    REAL(name); \
    type done = real given; \
    if (done < 0) count_of(file); \
    return done; \
  }

COUNTED(ssize_t, read, (int file, void *into, size_t size), (file, into, size))
COUNTED(ssize_t, write, (int file, const void *from, size_t size), (file, from, size))
COUNTED(ssize_t, pread, (int file, void *into, size_t size, off_t at), (file, into, size, at))
COUNTED(ssize_t, pread64, (int file, void *into, size_t size, off64_t at), (file, into, size, at))
COUNTED(ssize_t, pwrite, (int file, const void *from, size_t size, off_t at), (file, from, size, at))
COUNTED(ssize_t, pwrite64, (int file, const void *from, size_t size, off64_t at), (file, from, size, at))
COUNTED(int, ftruncate, (int file, off_t size), (file, size))
COUNTED(int, ftruncate64, (int file, off64_t size), (file, size))
COUNTED(int, fsync, (int file), (file))
COUNTED(int, fdatasync, (int file), (file))

static int opened(int file) {
  static const int whys[] = {EIO, EMFILE, ENFILE, ENOMEM, ENOSPC, EDQUOT};
  for (size_t i = 0; file < 0 && i < sizeof whys / sizeof *whys; i++)
    if (errno == whys[i]) count();
  return file;
}

int open(const char *path, int flags, ...) {
  REAL(open);
  va_list rest;
  va_start(rest, flags);
  mode_t mode = flags & O_CREAT ? va_arg(rest, mode_t) : 0;
  va_end(rest);
  return opened(real(path, flags, mode));
}

int open64(const char *path, int flags, ...) {
  REAL(open64);
  va_list rest;
  va_start(rest, flags);
  mode_t mode = flags & O_CREAT ? va_arg(rest, mode_t) : 0;
  va_end(rest);
  return opened(real(path, flags, mode));
}
