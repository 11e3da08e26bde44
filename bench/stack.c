/* How much stack a call of the library takes: each is made on a stack of its own that is full of one byte, and what is another byte afterwards was
   used.

   stack CASES     a line for each case, and in it for each function the answer, and the bytes of stack from the place where the caller's ended, the
                   return address among them. CASES: settings and tree, each after its length in four bytes.

   The functions are the controller's if CONTROLLER is defined, that of reducing if REDUCING is, else the planner's. For x86-64 alone. */
#include "inputs.h"
#include <string.h>
#include <sys/mman.h>
#include <wenduulig.h>

#ifdef REDUCING
enum { CALLS = 1 };
#else
enum { CALLS = 4 };
#endif
enum { SIZE = 64 * 1024, PAGE = 4096, FILLS = 2 };

typedef int64_t function(const uint8_t *, size_t, const uint8_t *, size_t, uint8_t *, size_t);

/* Two stacks, each with a filling of its own, as a byte that is written may be the filling's. */
static uint8_t *stacks[FILLS], fillings[FILLS][PAGE], out[65536];
static const uint8_t fills[FILLS] = {0xa3, 0x5c};

/* A preview takes the size as its fifth argument, where a call that writes has the buffer; reducing has no settings, so that the tree is its first. */
static const struct { function *call; int previews; } calls[CALLS] = {
#if defined REDUCING
    {(function *)wenduulig_reduce, 0}};
#elif defined CONTROLLER
    {wenduulig_controller_to_sql, 0}, {wenduulig_controller_to_geopackage_sql, 0}, {(function *)wenduulig_controller_preview_sql, 1},
    {(function *)wenduulig_controller_preview_geopackage_sql, 1}};
#else
    {wenduulig_to_sql, 0}, {wenduulig_to_geopackage_sql, 0}, {(function *)wenduulig_preview_sql, 1}, {(function *)wenduulig_preview_geopackage_sql, 1}};
#endif

/* Makes the call with the stack's end in the place of the caller's. */
static int64_t on_stack(uint8_t *end, function *call, const struct bytes *s, const struct bytes *t, uint64_t fifth, uint64_t sixth)
{
    register uint64_t r8 __asm__("r8") = fifth, r9 __asm__("r9") = sixth;
    const uint8_t *a = s->at, *b = t->at;
    size_t m = s->n, n = t->n;
    int64_t answer;
    __asm__ volatile("movq %%rsp, %%rbx\n\tmovq %[end], %%rsp\n\tcallq *%[call]\n\tmovq %%rbx, %%rsp"
                     : "=a"(answer), "+D"(a), "+S"(m), "+d"(b), "+c"(n), "+r"(r8), "+r"(r9)
                     : [end] "r"(end), [call] "r"(call)
                     : "rbx", "r10", "r11", "memory", "cc", "xmm0", "xmm1", "xmm2", "xmm3", "xmm4", "xmm5", "xmm6", "xmm7", "xmm8", "xmm9", "xmm10",
                       "xmm11", "xmm12", "xmm13", "xmm14", "xmm15");
    return answer;
}

/* The bytes that a call changed, from the lowest on; they are filled anew. */
static size_t used(int which)
{
    uint8_t *stack = stacks[which];
    size_t low = 0;
    while (low < SIZE && !memcmp(stack + low, fillings[which], PAGE))
        low += PAGE;
    while (low < SIZE && stack[low] == fills[which])
        low++;
    memset(stack + low, fills[which], SIZE - low);
    return SIZE - low;
}

static size_t measured(int k, const struct bytes *s, const struct bytes *t, int64_t *answer)
{
    function *call = calls[k].call;
    size_t most = 0;
#ifdef REDUCING
    const struct bytes lent = {out, sizeof out};
    s = t;
    t = &lent;
#endif
    for (int which = 0; which < FILLS; which++) {
        uint8_t *end = stacks[which] + SIZE;
        *answer = calls[k].previews ? on_stack(end, call, s, t, sizeof out, 0) : on_stack(end, call, s, t, (uint64_t)(uintptr_t)out, sizeof out);
        size_t n = used(which);
        most = n > most ? n : most;
    }
    return most;
}

/* A page without access lies below each. */
static void make_stacks(void)
{
    for (int which = 0; which < FILLS; which++) {
        uint8_t *room = mmap(NULL, SIZE + PAGE, PROT_READ | PROT_WRITE, MAP_PRIVATE | MAP_ANONYMOUS, -1, 0);
        if (room == MAP_FAILED || mprotect(room, PAGE, PROT_NONE))
            fail("no memory for a stack");
        stacks[which] = room + PAGE;
        memset(stacks[which], fills[which], SIZE);
        memset(fillings[which], fills[which], PAGE);
    }
}

int main(int argc, char **argv)
{
    FILE *f = argc == 2 ? fopen(argv[1], "rb") : NULL;
    if (!f)
        fail("usage: stack CASES");
    make_stacks();
    for (int c; (c = fgetc(f)) != EOF;) {
        ungetc(c, f);
        struct bytes s = part(f), t = part(f);
        for (int k = 0; k < CALLS; k++) {
            int64_t answer;
            size_t n = measured(k, &s, &t, &answer);
            printf("%lld %zu%c", (long long)answer, n, k + 1 < CALLS ? ' ' : '\n');
        }
        free(s.at);
        free(t.at);
    }
    fclose(f);
    return 0;
}
