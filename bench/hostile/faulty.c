/* Preloaded: refuses growths of memory by their number, from FROM to TO, and writes to the file TRACE who asked; and
   has the writes (or reads) of several bytes from SHORT_FROM to SHORT_TO move only a part of them. CALL says which:
   write or read. The program's functions cannot be unwound, so TRACE gets each word of the stack that is a place in
   the program's code. */
#define _GNU_SOURCE
#include <dlfcn.h>
#include <fcntl.h>
#include <link.h>
#include <stdio.h>
#include <stdlib.h>
#include <string.h>
#include <sys/socket.h>
#include <sys/uio.h>
#include <unistd.h>

static long growths, from, to, moves, short_from, short_to;
static int traced, is_write, is_read;
static const char *trace;
static unsigned long base, code, code_end;

/* The program itself comes first. */
static int find_code(struct dl_phdr_info *it, size_t size, void *none) {
  (void)size, (void)none;
  base = it->dlpi_addr;
  for (int i = 0; i < it->dlpi_phnum; i++)
    if (it->dlpi_phdr[i].p_type == PT_LOAD && (it->dlpi_phdr[i].p_flags & PF_X))
      code = base + it->dlpi_phdr[i].p_vaddr, code_end = code + it->dlpi_phdr[i].p_memsz;
  return 1;
}

static long word(const char *name) { return getenv(name) ? atol(getenv(name)) : 0; }

__attribute__((constructor)) static void begin(void) {
  dl_iterate_phdr(find_code, 0);
  from = word("FROM"), to = word("TO"), short_from = word("SHORT_FROM"), short_to = word("SHORT_TO");
  trace = getenv("TRACE");
  is_write = getenv("CALL") && !strcmp(getenv("CALL"), "write");
  is_read = getenv("CALL") && !strcmp(getenv("CALL"), "read");
  growths = moves = 0;
}

/* So that the script sees that the number was never reached. */
__attribute__((destructor)) static void end(void) {
  if (from && growths < from) _Exit(99);
  if (short_from && moves < short_from) _Exit(99);
}

static int refused(void) {
  growths++;
  if (!from || growths < from || growths > to) return 0;
  if (trace && !traced) {
    traced = 1;
    int file = open(trace, O_WRONLY | O_CREAT | O_TRUNC, 0600);
    unsigned long *word = __builtin_frame_address(0);
    for (int i = 0; file >= 0 && i < 400; i++)
      if (code <= word[i] && word[i] < code_end) dprintf(file, "%lx\n", word[i] - base);
    if (file >= 0) close(file);
  }
  return 1;
}

void *malloc(size_t n) {
  static void *(*next)(size_t);
  if (!next) next = dlsym(RTLD_NEXT, "malloc");
  return refused() ? 0 : next(n);
}

void *realloc(void *p, size_t n) {
  static void *(*next)(void *, size_t);
  if (!next) next = dlsym(RTLD_NEXT, "realloc");
  return refused() ? 0 : next(p, n);
}

static size_t moved(size_t n) {
  if (n < 2) return n;
  moves++;
  return short_from && short_from <= moves && moves <= short_to ? 1 + moves % (n - 1) : n;
}

ssize_t write(int file, const void *bytes, size_t n) {
  static ssize_t (*next)(int, const void *, size_t);
  if (!next) next = dlsym(RTLD_NEXT, "write");
  return next(file, bytes, is_write ? moved(n) : n);
}

ssize_t read(int file, void *bytes, size_t n) {
  static ssize_t (*next)(int, void *, size_t);
  if (!next) next = dlsym(RTLD_NEXT, "read");
  return next(file, bytes, is_read ? moved(n) : n);
}
