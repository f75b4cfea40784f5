/* Stacks among which threads change: what runs on one of them may be gone on with by another
   thread. Private to inside.c. The sanitizers and valgrind are told where they look. */
#ifndef TISWENOR_STACKS_H
#define TISWENOR_STACKS_H

#include <stddef.h>

#if defined __SANITIZE_ADDRESS__
#include <sanitizer/common_interface_defs.h>
#endif
#if defined __SANITIZE_THREAD__
#include <sanitizer/tsan_interface.h>
#endif
#if defined __has_include
#if __has_include(<valgrind/valgrind.h>)
#include <valgrind/valgrind.h>
#endif
#endif

#pragma GCC visibility push(hidden)

/* In stacks.S: keeps where this stack stands in *from, and goes on where `to` stands. Returns once
   something goes on where *from says. */
void tiswenor_inside_switch(void **from, void *to);

/* In stacks.S: what a new stack begins with. Calls the function of rbx with what r12 has. */
void tiswenor_inside_begin(void);

#pragma GCC visibility pop

/* A stack on which nothing runs now. */
struct stack {
  void *at;
#if defined VALGRIND_STACK_REGISTER
  unsigned known_as;
#endif
#if defined __SANITIZE_ADDRESS__
  const void *low;
  size_t size;
  void *fake;
#endif
#if defined __SANITIZE_THREAD__
  void *fiber;
#endif
};

/* A new stack in this memory, on which `run(state)` is to run. It does not return. */
static inline void stack_make(struct stack *stack, unsigned char *low, size_t size,
                              void (*run)(void *), void *state) {
  void **top = (void **)(low + size) - 2; /* the stack is aligned where a call is made */
  *--top = (void *)tiswenor_inside_begin;
  *--top = NULL;        /* rbp */
  *--top = (void *)run; /* rbx */
  *--top = state;       /* r12 */
  for (int i = 0; i < 3; i++) *--top = NULL;
  stack->at = top;
#if defined __SANITIZE_ADDRESS__
  stack->low = low;
  stack->size = size;
  stack->fake = NULL;
#endif
#if defined __SANITIZE_THREAD__
  stack->fiber = __tsan_create_fiber(0);
#endif
#if defined VALGRIND_STACK_REGISTER
  stack->known_as = VALGRIND_STACK_REGISTER(low, low + size - 1);
#endif
}

/* The memory of a stack that was made is to be given back: nothing stands there. */
static inline void stack_unmake(struct stack *stack) {
#if defined __SANITIZE_THREAD__
  __tsan_destroy_fiber(stack->fiber);
#endif
#if defined VALGRIND_STACK_REGISTER
  VALGRIND_STACK_DEREGISTER(stack->known_as);
#endif
  stack->at = NULL;
}

/* What the first function on a new stack does first: `left` is the stack that was left for it. */
static inline void stack_begun(struct stack *left) {
#if defined __SANITIZE_ADDRESS__
  __sanitizer_finish_switch_fiber(NULL, &left->low, &left->size);
#else
  (void)left;
#endif
}

/* Leaves the stack `from` for `to`. Returns once something leaves another stack for `from`: that
   one is `left` then. */
static inline void stack_leave(struct stack *from, struct stack *to, struct stack *left) {
#if defined __SANITIZE_ADDRESS__
  __sanitizer_start_switch_fiber(&from->fake, to->low, to->size);
#endif
#if defined __SANITIZE_THREAD__
  from->fiber = __tsan_get_current_fiber();
  __tsan_switch_to_fiber(to->fiber, 0);
#endif
  tiswenor_inside_switch(&from->at, to->at);
#if defined __SANITIZE_ADDRESS__
  __sanitizer_finish_switch_fiber(from->fake, &left->low, &left->size);
#else
  (void)left;
#endif
}

#endif
