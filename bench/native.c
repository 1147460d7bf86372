/* What bench/run links to a program beside its bitcode: the functions of the kit's os library that the timing programs call, and a count of the calls of each
   function, for programs that are compiled to report them. */
#include <errno.h>
#include <stddef.h>
#include <stdint.h>
#include <stdlib.h>

static size_t count;
static char **words;

__attribute__((constructor)) static void keep(int argc, char **argv)
{
    count = argc;
    words = argv;
}

ptrdiff_t rattle_arg(size_t i, unsigned char *text, size_t room)
{
    size_t k = 0;
    if (count <= i)
        return -1;
    for (; words[i][k]; k++) {
        if (k == room)
            return -2;
        text[k] = words[i][k];
    }
    return k;
}

void rattle_set_errno(int error) { errno = error; }

/* These stand in the bitcode and are not called. */
#define NOT_CALLED(name) void name(void) { abort(); }
NOT_CALLED(rattle_errno)
NOT_CALLED(rattle_arg_count)
NOT_CALLED(rattle_open_new)
NOT_CALLED(rattle_open_to_read)
NOT_CALLED(rattle_open_to_append)
NOT_CALLED(rattle_open_to_update)
NOT_CALLED(rattle_open_to_overwrite)

/* Read by tried.py: how many functions there are, how often each was called, and a place within it. */
enum { MOST = 1 << 12 };
uint32_t functions;
uint64_t calls[MOST];
void *places[MOST];

void __sanitizer_cov_trace_pc_guard_init(uint32_t *guard, uint32_t *end)
{
    for (; guard < end; guard++) {
        if (functions == MOST)
            abort();
        *guard = functions++;
    }
}

void __sanitizer_cov_trace_pc_guard(uint32_t *guard)
{
    calls[*guard]++;
    places[*guard] = __builtin_return_address(0);
}
