// A library that is loaded before the C library and makes an allocation fail: the call of malloc or realloc whose number, counted from 1
// in each process, is the value of the environment variable FAILING, and all later ones too if ALL_LATER is set. At the end it writes how
// many calls there were into the file that COUNT_TO names.
#define _GNU_SOURCE
#include <dlfcn.h>
#include <stdatomic.h>
#include <stddef.h>
#include <stdio.h>
#include <stdlib.h>
#include <sys/syscall.h>
#include <unistd.h>

static atomic_long count;
static long failing;
static int all_later;
static void *(*next_malloc)(size_t);
static void *(*next_realloc)(void *, size_t);

__attribute__((constructor)) static void begin(void) {
  const char *number = getenv("FAILING");
  next_malloc = (void *(*)(size_t))dlsym(RTLD_NEXT, "malloc");
  next_realloc = (void *(*)(void *, size_t))dlsym(RTLD_NEXT, "realloc");
  failing = number ? atol(number) : 0;
  all_later = getenv("ALL_LATER") != NULL;
  atomic_store(&count, 0);
}

__attribute__((destructor)) static void end(void) {
  const char *path = getenv("COUNT_TO");
  FILE *file = path ? fopen(path, "w") : NULL;
  if (file) {
    fprintf(file, "%ld\n", atomic_load(&count));
    fclose(file);
  }
}

// A program with threads ends by this call, without running destructors.
void _exit(int status) {
  end();
  syscall(SYS_exit_group, status);
  for (;;) {
  }
}

static int fails(void) {
  long number = atomic_fetch_add(&count, 1) + 1;
  return failing > 0 && (number == failing || (all_later && number > failing));
}

void *malloc(size_t size) {
  if (!next_malloc) next_malloc = (void *(*)(size_t))dlsym(RTLD_NEXT, "malloc");
  return fails() ? NULL : next_malloc(size);
}

void *realloc(void *old, size_t size) {
  if (!next_realloc) next_realloc = (void *(*)(void *, size_t))dlsym(RTLD_NEXT, "realloc");
  return fails() ? NULL : next_realloc(old, size);
}
