/* Names that the kit's compiler writes for a sanitizer, and that an older one's library hasn't. Compiled without builtins, each is a call that the sanitizer sees. */
#include <string.h>

void *__tsan_memcpy(void *to, const void *from, size_t count) { return memcpy(to, from, count); }
void *__tsan_memmove(void *to, const void *from, size_t count) { return memmove(to, from, count); }
void *__tsan_memset(void *to, int byte, size_t count) { return memset(to, byte, count); }
