#ifndef FUEL_PUMP_H
#define FUEL_PUMP_H
#include <stdint.h>
#include <stdbool.h>

#define MOST_FAILURES 2u

bool pump_runs(bool demanded, uint16_t level);
void pump_failed(void);
#endif
