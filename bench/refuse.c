// Refuses one allocation of a program that loads it by LD_PRELOAD, for bench/memory.sh.
//
// Of the calls of malloc and realloc those count that the program's own code makes, which are all of its allocations; those
// that the C library makes for itself are let through. The one of the number in REFUSE, from 1, is answered with no memory.
// Where the program ends, the file that COUNTED names gets a line: how many were counted, and 1 where one was refused, else 0.
#include <elf.h>
#include <link.h>
#include <stdatomic.h>
#include <stdint.h>
#include <stdio.h>
#include <stdlib.h>
#include <sys/auxv.h>
#include <sys/syscall.h>
#include <unistd.h>

extern void *__libc_malloc(size_t size);
extern void *__libc_realloc(void *block, size_t size);

static uintptr_t code_begins, code_ends; // of the program's own code
static unsigned long refused_number;     // 0 for none
static atomic_ulong counted, refused;

// Finds the code of the program among the headers with which the system loaded it.
__attribute__((constructor)) static void begin(void) {
  const ElfW(Phdr) *headers = (const ElfW(Phdr) *)getauxval(AT_PHDR);
  const size_t count = getauxval(AT_PHNUM);
  uintptr_t base = 0;
  for (size_t i = 0; i < count; i++) {
    if (headers[i].p_type == PT_PHDR) base = (uintptr_t)headers - headers[i].p_vaddr;
  }
  for (size_t i = 0; i < count; i++) {
    if (headers[i].p_type == PT_LOAD && (headers[i].p_flags & PF_X)) {
      code_begins = base + headers[i].p_vaddr;
      code_ends = code_begins + headers[i].p_memsz;
    }
  }
  const char *number = getenv("REFUSE");
  refused_number = number ? strtoul(number, NULL, 10) : 0;
}

// Whether this call, which returns there, is the one that is refused.
static int refuses(void *returns_to) {
  const uintptr_t place = (uintptr_t)returns_to;
  if (place < code_begins || place >= code_ends) return 0;
  if (atomic_fetch_add(&counted, 1) + 1 != refused_number) return 0;
  atomic_store(&refused, 1);
  return 1;
}

void *malloc(size_t size) {
  return refuses(__builtin_return_address(0)) ? NULL : __libc_malloc(size);
}

void *realloc(void *block, size_t size) {
  return refuses(__builtin_return_address(0)) ? NULL : __libc_realloc(block, size);
}

// The program ends by this call, and so runs nothing that a library might leave for its end.
_Noreturn void _exit(int status) {
  const char *name = getenv("COUNTED");
  FILE *file = name ? fopen(name, "w") : NULL;
  if (file) {
    fprintf(file, "%lu %lu\n", atomic_load(&counted), atomic_load(&refused));
    fclose(file);
  }
  for (;;) syscall(SYS_exit_group, status);
}
