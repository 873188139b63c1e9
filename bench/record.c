// Records what a program that loads it by LD_PRELOAD writes to its store and makes to last, for bench/power.sh.
//
// Each call of pwrite or fdatasync of a file of a store's length is made, and where it succeeded told in the file that
// RECORD names: a write by the byte 'W', its place and its length in eight bytes each, the lowest first, and what was written;
// a sync by the byte 'S'.
#define _GNU_SOURCE
#include <dlfcn.h>
#include <stdint.h>
#include <stdio.h>
#include <stdlib.h>
#include <sys/stat.h>
#include <sys/syscall.h>
#include <sys/types.h>
#include <unistd.h>

enum { STORE_SIZE = 4194304 };

static FILE *record;

__attribute__((constructor)) static void begin(void) {
  const char *name = getenv("RECORD");
  record = name ? fopen(name, "wb") : NULL;
}

static int is_store(int file) {
  struct stat found;
  return record && fstat(file, &found) == 0 && S_ISREG(found.st_mode) && found.st_size == STORE_SIZE;
}

static void tell_write(int file, const void *bytes, ssize_t many, off_t place) {
  if (many <= 0 || !is_store(file)) return;
  const uint64_t head[2] = {(uint64_t)place, (uint64_t)many};
  fputc('W', record);
  fwrite(head, sizeof head, 1, record);
  fwrite(bytes, (size_t)many, 1, record);
}

ssize_t pwrite64(int file, const void *bytes, size_t many, off64_t place) {
  static ssize_t (*next)(int, const void *, size_t, off64_t);
  if (!next) next = dlsym(RTLD_NEXT, "pwrite64");
  const ssize_t written = next(file, bytes, many, place);
  tell_write(file, bytes, written, place);
  return written;
}

ssize_t pwrite(int file, const void *bytes, size_t many, off_t place) {
  static ssize_t (*next)(int, const void *, size_t, off_t);
  if (!next) next = dlsym(RTLD_NEXT, "pwrite");
  const ssize_t written = next(file, bytes, many, place);
  tell_write(file, bytes, written, place);
  return written;
}

int fdatasync(int file) {
  static int (*next)(int);
  if (!next) next = dlsym(RTLD_NEXT, "fdatasync");
  const int status = next(file);
  if (status == 0 && is_store(file)) fputc('S', record);
  return status;
}

// The program ends by this call, which leaves what is still in the record's buffer.
_Noreturn void _exit(int status) {
  if (record) fclose(record);
  for (;;) syscall(SYS_exit_group, status);
}
