/* For tests alone: how often the pump has failed is set. */
#include "fuel_pump.c"

void set_failures(uint8_t count)
{
    failures = count;
}
