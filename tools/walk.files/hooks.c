/* What each function calls as it begins and ends: its address goes into the file that WALK names, with the highest bit set at its end. */
#include <stdint.h>
#include <stdio.h>
#include <stdlib.h>

static FILE *out;

static void put(uintptr_t at) {
    if (!out) {
        const char *name = getenv("WALK");
        out = name ? fopen(name, "wb") : NULL;
        if (!out) exit(9);
    }
    fwrite(&at, sizeof at, 1, out);
}

void __cyg_profile_func_enter(void *function, void *from) { (void)from; put((uintptr_t)function); }

void __cyg_profile_func_exit(void *function, void *from) { (void)from; put((uintptr_t)function | (uintptr_t)1 << 63); }
