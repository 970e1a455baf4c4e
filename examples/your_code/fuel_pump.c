#include "fuel_pump.h"

#define LOW_LEVEL 120u

static uint8_t failures;

/* Whether the pump runs: it is demanded, or the tank is low, and it has not failed too often. */
bool pump_runs(bool demanded, uint16_t level)
{
    if ((demanded || level < LOW_LEVEL) && failures <= MOST_FAILURES) {
        return true;
    }
    return false;
}

void pump_failed(void)
{
    if (failures < 255u) {
        failures++;
    }
}
