# 1 "limit.c"
static __inline__ int least(int value, int most) __attribute__((const));
static __inline__ int least(int value, int most)
{
    return value < most ? value : most;
}
#pragma GCC optimize ("O2")
__extension__ extern int mcdc_in(void);
int limited()
{
    register int value = mcdc_in();
    return value > 0 || value < -100 ? least(value, 100) : 0;
}
