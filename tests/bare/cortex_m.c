/* A Cortex-M begins by the two words at address 0: where its stack ends, and where to start. Newlib's own start takes over from there,
 * and prints through the emulator (semihosting). */
#include <stdint.h>

extern void _start(void);

static void begin(void)
{
#ifdef __ARM_FP
    *(volatile uint32_t *)0xE000ED88 |= 0xFu << 20; /* CPACR: the unit for floating point may be used */
#endif
    _start();
}

__attribute__((section(".vectors"), used)) static void (*const vectors[2])(void) = {(void (*)(void))0x20040000, begin};
