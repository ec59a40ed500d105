/* The heap that libsumcheck_c.a wants, over malloc, realloc and free. tunaprow.h says what each function owes. */
#include "tunaprow.h"

#include <stdlib.h>

/* A refusal points here. */
static unsigned char nothing;

static struct tunaprow_block block_at(void *at) {
    struct tunaprow_block block = {at != NULL, at != NULL ? at : &nothing};
    return block;
}

struct tunaprow_block rattle_alloc(size_t size, size_t align) { return block_at(malloc(size != 0 ? size : align)); }

struct tunaprow_block rattle_realloc(void *at, size_t kept, size_t size, size_t align) {
    (void)kept;
    return block_at(realloc(at, size != 0 ? size : align));
}

void rattle_dealloc(void *at) { free(at); }
