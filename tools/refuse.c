// Stands before the C library's allocator and refuses requests for memory, in copies of a process that are made
// anew for each:
//
//     cc -O1 -Wall -Wextra -Werror -shared -fPIC -o refuse.so tools/refuse.c -ldl
//     REFUSE=MOMENT ASKED=FD TOLD=FD LD_PRELOAD=./refuse.so PROGRAM ..
//
// At the moment (`start`: before its first line; `request`: before each request for memory, of many alike before some;
// `each`: before each of them; `accept`: before it accepts a connection) the process tells `ready SIZE`, with the bytes that are
// requested, or 0, and reads lines from the descriptor ASKED. `try K L`: a copy of it goes on, in which the requests K to L are
// refused, counted from that moment on, or from the copy's connection on; `try K L M`: so, and behind M requests it ends with
// status 97. `sizes`: the bytes that each request of the last copy was for are told, in one line. `go`: it goes on itself, up to
// the next such moment, and at `go K` up to the K-th one, of requests. At the end of ASKED it ends.
//
// What is told, a line each on the descriptor TOLD, beside `ready`: `ended STATUS ASKED REFUSED` where a copy has ended
// (a signal is 128 and its number), with how many requests were made and how many refused; `accepts 0 ASKED REFUSED`
// where a copy is about to accept another connection, from when on nothing is counted or refused. It reads a line then:
// at `go` it goes on, at any other it ends with status 0.
//
// A copy reads its standard input, a file, from where the process stands. Each process is at MOMENT of the wall clock,
// listens at a free port, whatever port it asks for, waits for no disk, and gets the same random bytes: copies that do
// the same leave the same files.
#define _GNU_SOURCE
#include <dlfcn.h>
#include <errno.h>
#include <netinet/in.h>
#include <stdio.h>
#include <stdlib.h>
#include <string.h>
#include <sys/mman.h>
#include <sys/socket.h>
#include <sys/syscall.h>
#include <sys/wait.h>
#include <time.h>
#include <unistd.h>

#define MOMENT 1700000000
#define LINE 64
// Behind so many requests in a row for as many bytes, as for the slots of pages, one in so many is a moment.
#define ALIKE 64
#define LEAP 50
// Of how many requests of a copy the sizes are told, and in how many digits.
#define SIZES 100000
#define DIGITS 21

struct counts {
  long asked, refused;
  size_t sizes[SIZES];
};

static struct counts *counts;
static int is_copy, is_counting, waits_at_accept, waits_at_request, waits_at_each, asks, tells, accepted;
static long from, to, most, passes;

static void give_up(const char *why) {
  perror(why);
  _exit(99);
}

static int descriptor(const char *name) {
  const char *text = getenv(name);
  if (!text) give_up(name);
  return atoi(text);
}

// Whether a line came; none at the end. The next one is written behind an answer.
static int read_line(char *line) {
  ssize_t got = read(asks, line, LINE);
  if (got < 0) give_up("ASKED");
  if (got == 0) return 0;
  if (line[got - 1] != '\n') give_up("a line of ASKED");
  line[got - 1] = 0;
  return 1;
}

static void tell(const char *line, int length) {
  if (write(tells, line, length) != length) give_up("TOLD");
}

// Tells the bytes that the last copy requested, each behind a space.
static void tell_sizes(void) {
  static char text[SIZES * DIGITS];
  int length = 0;
  for (long n = 0; n < counts->asked && n < SIZES; n++) length += snprintf(text + length, DIGITS, " %zu", counts->sizes[n]);
  text[length++] = '\n';
  tell(text, length);
}

static void await(pid_t copy) {
  int status;
  char line[LINE];
  if (waitpid(copy, &status, 0) != copy) give_up("waitpid");
  int ended = WIFEXITED(status) ? WEXITSTATUS(status) : 128 + WTERMSIG(status);
  tell(line, snprintf(line, LINE, "ended %d %ld %ld\n", ended, counts->asked, counts->refused));
}

// Makes copies until this process goes on itself, or is one.
static void make_copies(size_t size) {
  char line[LINE];
  tell(line, snprintf(line, LINE, "ready %zu\n", size));
  while (read_line(line)) {
    if (!strcmp(line, "go")) return;
    if (sscanf(line, "go %ld", &passes) == 1) return;
    if (!strcmp(line, "sizes")) {
      tell_sizes();
      continue;
    }
    most = 0;
    if (sscanf(line, "try %ld %ld %ld", &from, &to, &most) < 2) give_up(line);
    counts->asked = counts->refused = 0;
    off_t place = lseek(0, 0, SEEK_CUR);
    pid_t copy = fork();
    if (copy < 0) give_up("fork");
    if (copy == 0) {
      is_copy = 1;
      return;
    }
    await(copy);
    lseek(0, place, SEEK_SET);
  }
  _exit(0);
}

static void __attribute__((constructor)) begin(void) {
  const char *moment = getenv("REFUSE");
  if (!moment) return;
  asks = descriptor("ASKED");
  tells = descriptor("TOLD");
  counts = mmap(NULL, sizeof *counts, PROT_READ | PROT_WRITE, MAP_SHARED | MAP_ANONYMOUS, -1, 0);
  if (counts == MAP_FAILED) give_up("mmap");
  waits_at_accept = !strcmp(moment, "accept");
  waits_at_each = !strcmp(moment, "each");
  waits_at_request = waits_at_each || !strcmp(moment, "request");
  if (waits_at_accept || waits_at_request) return;
  make_copies(0);
  is_counting = is_copy;
}

static int is_one_of_many(size_t size) {
  static size_t last;
  static long row;
  row = size == last ? row + 1 : 0;
  last = size;
  return row >= ALIKE && row % LEAP;
}

static int is_refused(size_t size) {
  if (waits_at_request && !is_copy && (waits_at_each || !is_one_of_many(size)) && --passes <= 0) {
    passes = 0;
    make_copies(size);
    is_counting = is_copy;
  }
  if (!is_counting) return 0;
  long n = ++counts->asked;
  if (n <= SIZES) counts->sizes[n - 1] = size;
  if (most && n > most) _exit(97);
  if (n < from || n > to) return 0;
  ++counts->refused;
  return 1;
}

void *malloc(size_t size) {
  static void *(*real)(size_t);
  if (!real) real = dlsym(RTLD_NEXT, "malloc");
  if (!is_refused(size)) return real(size);
  errno = ENOMEM;
  return NULL;
}

void *realloc(void *place, size_t size) {
  static void *(*real)(void *, size_t);
  if (!real) real = dlsym(RTLD_NEXT, "realloc");
  if (!is_refused(size)) return real(place, size);
  errno = ENOMEM;
  return NULL;
}

void *aligned_alloc(size_t align, size_t size) {
  static void *(*real)(size_t, size_t);
  if (!real) real = dlsym(RTLD_NEXT, "aligned_alloc");
  if (!is_refused(size)) return real(align, size);
  errno = ENOMEM;
  return NULL;
}

int posix_memalign(void **place, size_t align, size_t size) {
  static int (*real)(void **, size_t, size_t);
  if (!real) real = dlsym(RTLD_NEXT, "posix_memalign");
  return is_refused(size) ? ENOMEM : real(place, align, size);
}

// A copy, which ends soon, gives nothing back: it would have each page that it frees to itself first, a copy of that too.
void free(void *place) {
  static void (*real)(void *);
  if (!real) real = dlsym(RTLD_NEXT, "free");
  if (!is_copy) real(place);
}

static void accept_again(void) {
  char line[LINE];
  is_counting = 0;
  tell(line, snprintf(line, LINE, "accepts 0 %ld %ld\n", counts->asked, counts->refused));
  if (!read_line(line) || strcmp(line, "go")) _exit(0);
}

int accept4(int listener, struct sockaddr *address, socklen_t *length, int flags) {
  static int (*real)(int, struct sockaddr *, socklen_t *, int);
  if (!real) real = dlsym(RTLD_NEXT, "accept4");
  if (waits_at_accept && !is_copy) make_copies(0);
  else if (waits_at_accept) accept_again();
  int stream = real(listener, address, length, flags);
  if (waits_at_accept && is_copy && stream >= 0) is_counting = !accepted++;
  return stream;
}

int bind(int socket, const struct sockaddr *address, socklen_t length) {
  static int (*real)(int, const struct sockaddr *, socklen_t);
  if (!real) real = dlsym(RTLD_NEXT, "bind");
  struct sockaddr_in free_port;
  if (length != sizeof free_port || address->sa_family != AF_INET) return real(socket, address, length);
  memcpy(&free_port, address, length);
  free_port.sin_port = 0;
  return real(socket, (struct sockaddr *)&free_port, length);
}

int clock_gettime(clockid_t clock, struct timespec *now) {
  if (clock != CLOCK_REALTIME) return syscall(SYS_clock_gettime, clock, now);
  now->tv_sec = MOMENT;
  now->tv_nsec = 0;
  return 0;
}

int getentropy(void *place, size_t length) {
  static unsigned long long state = 1;
  unsigned char *bytes = place;
  for (size_t i = 0; i < length; i++) {
    state = state * 6364136223846793005ULL + 1442695040888963407ULL;
    bytes[i] = state >> 56;
  }
  return 0;
}

int fsync(int file) {
  (void)file;
  return 0;
}

int fdatasync(int file) {
  (void)file;
  return 0;
}
