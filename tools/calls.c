// Wraps the C library's calls that write, cut, sync and open files, send and bind. Each variable of the environment changes one
// thing; without it the calls are as they were:
//
//     cc -O1 -Wall -Wextra -Werror -shared -fPIC -o calls.so tools/calls.c -ldl
//     VARIABLE=VALUE LD_PRELOAD=./calls.so PROGRAM ..
//
// ENDS=NUMBER: kills the process, as by a signal, at the call of this number, from 1 on, that changes a regular file. The call is not
// made.
// TOLD=FILE: adds a line to FILE for each call that is made: `write NAME` for a write at a place or a cut, `sync NAME`, `said NAME` for
// what is sent or printed, `listens MODE NAME` for a Unix socket that begins to listen, with the mode at its path. NAME is how the system names the descriptor, without its folders.
// FAILS=FILE: each sync fails as long as FILE exists. With ONCE=NUMBER only the sync of this number fails, from 1 on, and removes FILE.
// FULL=FILE: a write at a place finds no room on the disk as long as FILE exists.
// UNSEEN=FILE: each look at a path fails for want of memory of the system as long as FILE exists.
// REFUSED='CALL NUMBER': each CALL fails by this number of errno: `open` (of a database, to be written), `pwrite`, `bind`, or `accept`.
#define _GNU_SOURCE
#include <dlfcn.h>
#include <errno.h>
#include <fcntl.h>
#include <signal.h>
#include <stdarg.h>
#include <stdio.h>
#include <stdlib.h>
#include <string.h>
#include <sys/socket.h>
#include <sys/stat.h>
#include <sys/syscall.h>
#include <sys/types.h>
#include <sys/un.h>
#include <unistd.h>

#define REAL(name) \
  static __typeof__(name) *real; \
  if (!real) real = (__typeof__(name) *)dlsym(RTLD_NEXT, #name)

static void end_at(int file) {
  static long calls;
  struct stat found;
  const char *ends = getenv("ENDS");
  if (!ends || fstat(file, &found) || !S_ISREG(found.st_mode)) return;
  if (++calls == atol(ends)) raise(SIGKILL);
}

static void tell(const char *what, int file) {
  char link[64], path[4096], line[4200];
  const char *told = getenv("TOLD");
  if (!told) return;
  snprintf(link, sizeof link, "/proc/self/fd/%d", file);
  ssize_t length = readlink(link, path, sizeof path - 1);
  path[length < 0 ? 0 : length] = 0;
  const char *slash = strrchr(path, '/');
  int size = snprintf(line, sizeof line, "%s %s\n", what, slash ? slash + 1 : path);
  int into = open(told, O_WRONLY | O_APPEND | O_CREAT | O_CLOEXEC, 0600);
  if (into < 0 || syscall(SYS_write, into, line, size) != size) _exit(99);
  close(into);
}

static int exists(const char *variable) {
  const char *path = getenv(variable);
  return path && !access(path, F_OK);
}

static int is_refused(const char *call) {
  const char *text = getenv("REFUSED");
  char name[16];
  int number;
  if (!text || sscanf(text, "%15s %d", name, &number) != 2 || strcmp(name, call)) return 0;
  errno = number;
  return 1;
}

static int has_no_room(void) {
  if (!exists("FULL")) return 0;
  errno = ENOSPC;
  return 1;
}

static int fails(void) {
  static long calls;
  const char *once = getenv("ONCE");
  if (!exists("FAILS") || (once && ++calls != atol(once))) return 0;
  if (once) unlink(getenv("FAILS"));
  errno = EIO;
  return 1;
}

int open(const char *path, int flags, ...) {
  REAL(open);
  size_t length = strlen(path);
  int is_database = length > 3 && !strcmp(path + length - 3, ".db");
  if ((flags & O_ACCMODE) != O_RDONLY && is_database && is_refused("open")) return -1;
  va_list rest;
  va_start(rest, flags);
  mode_t mode = flags & O_CREAT ? va_arg(rest, mode_t) : 0;
  va_end(rest);
  return real(path, flags, mode);
}

int statx(int folder, const char *restrict path, int flags, unsigned mask, struct statx *restrict found) {
  REAL(statx);
  if (*path && exists("UNSEEN")) {
    errno = ENOMEM;
    return -1;
  }
  return real(folder, path, flags, mask, found);
}

int bind(int socket, const struct sockaddr *address, socklen_t length) {
  REAL(bind);
  return is_refused("bind") ? -1 : real(socket, address, length);
}

int accept4(int listener, struct sockaddr *restrict address, socklen_t *restrict length, int flags) {
  REAL(accept4);
  return is_refused("accept") ? -1 : real(listener, address, length, flags);
}

ssize_t send(int socket, const void *from, size_t size, int flags) {
  REAL(send);
  tell("said", socket);
  return real(socket, from, size, flags);
}

ssize_t write(int file, const void *from, size_t size) {
  REAL(write);
  end_at(file);
  tell("said", file);
  return real(file, from, size);
}

ssize_t pwrite64(int file, const void *from, size_t size, off64_t at) {
  REAL(pwrite64);
  end_at(file);
  if (is_refused("pwrite") || has_no_room()) return -1;
  tell("write", file);
  return real(file, from, size, at);
}

ssize_t pwrite(int file, const void *from, size_t size, off_t at) { return pwrite64(file, from, size, at); }

int ftruncate64(int file, off64_t size) {
  REAL(ftruncate64);
  end_at(file);
  tell("write", file);
  return real(file, size);
}

int ftruncate(int file, off_t size) { return ftruncate64(file, size); }

static int sync_by(int (*real)(int), int file) {
  end_at(file);
  int failed = fails() ? -1 : real(file);
  if (!failed) tell("sync", file);
  return failed;
}

int fsync(int file) {
  REAL(fsync);
  return sync_by(real, file);
}

int fdatasync(int file) {
  REAL(fdatasync);
  return sync_by(real, file);
}

int listen(int socket, int backlog) {
  REAL(listen);
  struct sockaddr_un at = {0};
  socklen_t size = sizeof at - 1;
  struct stat found;
  if (!getsockname(socket, (struct sockaddr *)&at, &size) && at.sun_family == AF_UNIX && !stat(at.sun_path, &found)) {
    char what[32];
    snprintf(what, sizeof what, "listens %o", (unsigned)found.st_mode & 0777);
    tell(what, socket);
  }
  return real(socket, backlog);
}
