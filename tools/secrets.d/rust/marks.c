/* Client requests of valgrind as functions, for the driver in Rust. */
#include <stddef.h>
#include <valgrind/memcheck.h>

void mark_secret(void *bytes, size_t len);
void mark_known(void *bytes, size_t len);

void mark_secret(void *bytes, size_t len) { (void)VALGRIND_MAKE_MEM_UNDEFINED(bytes, len); }
void mark_known(void *bytes, size_t len) { (void)VALGRIND_MAKE_MEM_DEFINED(bytes, len); }
