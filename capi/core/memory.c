/* Memory for the core. Calls read a store's tables all over. On pages of 4 KiB, most of these reads
 * would also wait for the page tables, so large tables lie on pages of 2 MiB where the system has
 * some. Linux gives them only on request, unless it is set up to give them always. */
#define _DEFAULT_SOURCE
#include <errno.h>
#include <stdlib.h>
#include <sys/mman.h>

enum { LARGE_PAGE = 1 << 21 };

/* What the core calls in place of malloc. free and realloc take what it answers. */
void *clsm_allocate(size_t size);

void *clsm_allocate(size_t size) {
    if (size < LARGE_PAGE) return malloc(size);
    void *memory;
    if (posix_memalign(&memory, LARGE_PAGE, size)) return NULL;
#ifdef MADV_HUGEPAGE
    /* Without the end that fills no large page. If it is refused, the pages are small. */
    const int before = errno;
    (void)madvise(memory, size - size % LARGE_PAGE, MADV_HUGEPAGE);
    errno = before;
#endif
    return memory;
}
