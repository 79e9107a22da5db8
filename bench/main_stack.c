/* Loaded before KLayout's libraries where it runs under an emulator. Ruby, which KLayout starts, asks where the first thread's stack is;
 * the C library would look that up in /proc/self/maps, at which the emulator (8.2.2) ends with a fault. This answers in its place: the largest
 * stack that may be, up to a little above the caller. */
#define _GNU_SOURCE
#include <pthread.h>
#include <stdint.h>
#include <sys/resource.h>

enum { PAGE = 4096, ABOVE = 16 * PAGE, USUAL = 8 << 20 };

int pthread_getattr_np(pthread_t thread, pthread_attr_t *attributes) {
    (void)thread;
    struct rlimit most;
    size_t size = getrlimit(RLIMIT_STACK, &most) == 0 && most.rlim_cur != RLIM_INFINITY ? most.rlim_cur : USUAL;
    uintptr_t top = ((uintptr_t)&most + ABOVE) / PAGE * PAGE;
    pthread_attr_init(attributes);
    return pthread_attr_setstack(attributes, (void *)(top - size), size);
}
