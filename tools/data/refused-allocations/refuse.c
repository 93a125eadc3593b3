#include <fcntl.h>
#include <stdlib.h>
#include <unistd.h>

extern void *__libc_malloc(size_t size);
extern void *__libc_realloc(void *old, size_t size);

static unsigned long refused, made;

__attribute__((constructor)) static void begin(void)
{
    const char *number = getenv("REFUSED");
    made = 0;
    refused = number ? strtoul(number, 0, 10) : 0;
}

__attribute__((destructor)) static void end(void)
{
    const char *file = getenv("COUNTED");
    int to = file ? open(file, O_WRONLY | O_CREAT | O_TRUNC, 0600) : -1;
    char digits[24], *first = digits + sizeof digits;
    do
        *--first = '0' + made % 10;
    while (made /= 10);
    if (to >= 0 && write(to, first, digits + sizeof digits - first) < 0)
        abort();
}

void *malloc(size_t size)
{
    return ++made == refused ? 0 : __libc_malloc(size);
}

void *realloc(void *old, size_t size)
{
    return ++made == refused ? 0 : __libc_realloc(old, size);
}
