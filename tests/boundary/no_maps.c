/* For Rust programs under an emulator, which may end when a program reads /proc/self/maps. The
 * Rust's runtime does that at its start, through this function of the C library, to be able to tell a
 * stack overflow from another fault; where it gets nothing it only tells less. */
#include <errno.h>

int pthread_getattr_np(unsigned long thread, void *attributes);

int pthread_getattr_np(unsigned long thread, void *attributes) {
    (void)thread;
    (void)attributes;
    return ENOSYS;
}
