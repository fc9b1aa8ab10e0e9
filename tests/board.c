/* What a Cortex-M4 starts with: the stack's top, and where to begin. The emulated board mps2-an386 has 4 MiB of memory from 0 and as
 * much from 0x20000000; what is printed goes out by semihosting. */
extern void _start(void);

__attribute__((section(".vectors"), used)) static void (*const vectors[2])(void) = {(void (*)(void))0x20400000, _start};
