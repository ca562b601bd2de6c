#define _GNU_SOURCE
#include "measure.h"

#include <pthread.h>
#include <stdint.h>
#include <stdlib.h>
#include <sys/mman.h>

enum { STACK = 1 << 20, PAINT = 0xA5, MARGIN = 256 };

typedef struct {
  uint8_t *stack;
  void (*call)(void *);
  void *with;
  size_t used;
} measured;

/* Paints all of the stack that lies below this frame, calls, and looks how far down the paint is gone. */
static void *measure(void *argument) {
  measured *job = argument;
  volatile uint8_t *stack = job->stack;
  size_t top = (size_t)((uint8_t *)__builtin_frame_address(0) - job->stack);
  for (size_t at = 0; at < top - MARGIN; at++) stack[at] = PAINT;
  job->call(job->with);
  size_t unused = 0;
  while (unused < top && stack[unused] == PAINT) unused++;
  job->used = top - unused;
  return NULL;
}

size_t stack_of(void (*call)(void *), void *with) {
  void *stack = mmap(NULL, STACK, PROT_READ | PROT_WRITE, MAP_PRIVATE | MAP_ANONYMOUS | MAP_STACK, -1, 0);
  if (stack == MAP_FAILED) abort();
  measured job = {stack, call, with, 0};
  pthread_attr_t attributes;
  pthread_t thread;
  if (pthread_attr_init(&attributes) || pthread_attr_setstack(&attributes, stack, STACK)) abort();
  if (pthread_create(&thread, &attributes, measure, &job) || pthread_join(thread, NULL)) abort();
  pthread_attr_destroy(&attributes);
  munmap(stack, STACK);
  return job.used;
}
