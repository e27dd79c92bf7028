/* malloc and free of the tests, with --wrap: each buffer ends just before a page that may not be touched, and starts after one, so that a byte read or written
   past its end stops the program on a core for which there is no valgrind. A buffer of odd length is so at an odd address, too. */
#define _DEFAULT_SOURCE
#include <stddef.h>
#include <stdint.h>
#include <sys/mman.h>

enum { PAGE = 4096, LIVE = 512 };
static struct { void *at, *map; size_t size; } live[LIVE];

void *__wrap_malloc(size_t len);
void __wrap_free(void *at);

void *__wrap_malloc(size_t len) {
    size_t room = (len / PAGE + 1) * PAGE;
    for (int i = 0; i < LIVE; i++) {
        if (live[i].at) continue;
        uint8_t *map = mmap(NULL, room + 2 * PAGE, PROT_NONE, MAP_PRIVATE | MAP_ANONYMOUS, -1, 0);
        if (map == MAP_FAILED || mprotect(map + PAGE, room, PROT_READ | PROT_WRITE)) return NULL;
        live[i].map = map, live[i].size = room + 2 * PAGE, live[i].at = map + PAGE + room - len;
        return live[i].at;
    }
    return NULL;
}

void __wrap_free(void *at) {
    for (int i = 0; at && i < LIVE; i++)
        if (live[i].at == at) munmap(live[i].map, live[i].size), live[i].at = NULL;
}
