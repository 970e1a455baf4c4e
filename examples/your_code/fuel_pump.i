# 0 "fuel_pump.c"
# 0 "<built-in>"
# 0 "<command-line>"
# 1 "fuel_pump.c"
# 1 "fuel_pump.h" 1


# 1 "headers/stdint.h" 1

typedef signed char int8_t;
typedef unsigned char uint8_t;
typedef short int16_t;
typedef unsigned short uint16_t;
typedef int int32_t;
typedef unsigned int uint32_t;
typedef long int64_t;
typedef unsigned long uint64_t;
# 4 "fuel_pump.h" 2
# 1 "headers/stdbool.h" 1
# 5 "fuel_pump.h" 2



_Bool pump_runs(_Bool demanded, uint16_t level);
void pump_failed(void);
# 2 "fuel_pump.c" 2



static uint8_t failures;


_Bool pump_runs(_Bool demanded, uint16_t level)
{
    if ((demanded || level < 120u) && failures <= 2u) {
        return 1;
    }
    return 0;
}

void pump_failed(void)
{
    if (failures < 255u) {
        failures++;
    }
}
