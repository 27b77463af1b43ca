/* The first object of a program: it begins a line of the processor's caches, and its bytes move the engines behind it
 * along. A function begins at a multiple of 16, so 0, 16, 32 and 48 are all the places that it can have in a line. */
#define TEXT_OF(number) #number
#define TEXT(number) TEXT_OF(number)

__asm__(".text\n\t.balign 64\n\t.skip 64 + " TEXT(BENCH_PLACE));
