// How the programs of this folder count the stack that a call uses.
#ifndef STACK_HPP
#define STACK_HPP

#include <ucontext.h>

#include <algorithm>
#include <cstddef>
#include <vector>

constexpr size_t MOST_STACK = 1 << 18;
constexpr unsigned char PAINT = 0xa5;
inline void (*painted_work)(void *);
inline void *painted_data;
inline ucontext_t painted_return, painted_context;

inline void on_painted_stack() { painted_work(painted_data); }

// Runs work on a painted stack of its own, and counts the bytes from its start to the last one that has lost its paint.
template <class Work> size_t stack_of(Work work) {
    std::vector<unsigned char> stack(MOST_STACK, PAINT);
    painted_work = [](void *data) { (*static_cast<Work *>(data))(); };
    painted_data = &work;
    getcontext(&painted_context);
    painted_context.uc_stack.ss_sp = stack.data();
    painted_context.uc_stack.ss_size = stack.size();
    painted_context.uc_link = &painted_return;
    makecontext(&painted_context, on_painted_stack, 0);
    swapcontext(&painted_return, &painted_context);
    return stack.end() - std::find_if(stack.begin(), stack.end(), [](unsigned char byte) { return byte != PAINT; });
}

#endif
