/* Memory that is refused once: the request for it whose number REFUSED tells, from 1 on. How many there were stands in the file COUNTED, as
   eight bytes. It is loaded before a program (LD_PRELOAD) whose own requests all come by malloc and realloc, and which ends without a
   last word of its libraries. */
#include <fcntl.h>
#include <stdatomic.h>
#include <stddef.h>
#include <stdlib.h>
#include <sys/mman.h>
#include <unistd.h>

extern void *__libc_malloc(size_t size);
extern void *__libc_realloc(void *place, size_t size);

static atomic_ulong *asked;
static unsigned long refused;

static int is_refused(void)
{
    return asked && atomic_fetch_add(asked, 1) + 1 == refused;
}

void *malloc(size_t size)
{
    return is_refused() ? NULL : __libc_malloc(size);
}

void *realloc(void *place, size_t size)
{
    return is_refused() ? NULL : __libc_realloc(place, size);
}

/* Counting begins behind the loading of libraries. */
__attribute__((constructor)) static void begin(void)
{
    const char *number = getenv("REFUSED"), *path = getenv("COUNTED");
    int file = path ? open(path, O_RDWR | O_CREAT | O_TRUNC, 0644) : -1;
    if (file < 0 || ftruncate(file, sizeof *asked))
        _exit(127);
    void *place = mmap(NULL, sizeof *asked, PROT_READ | PROT_WRITE, MAP_SHARED, file, 0);
    if (place == MAP_FAILED)
        _exit(127);
    close(file);
    refused = number ? strtoul(number, NULL, 10) : 0;
    asked = place;
}
