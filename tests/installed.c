/* The ten lines that tests/install builds against an installed library. */
#include <am33c93a.h>
#include <stdio.h>

int main(void)
{
    uint8_t chip[AM33C93A_IMAGE_LENGTH];
    uint32_t fresh = am33c93a_fresh(chip, sizeof chip);
    am33c93a_pointer(chip, sizeof chip, 1, AM33C93A_COMMAND);
    uint32_t reset = am33c93a_register(chip, sizeof chip, 1, AM33C93A_RESET);
    uint32_t status = AM33C93A_VALUE(am33c93a_auxiliary(chip, sizeof chip));
    printf("%u %u %02X\n", (unsigned)fresh, (unsigned)reset, (unsigned)status);
    return 0;
}
