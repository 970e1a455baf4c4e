/* For tests alone: functions that need those of bitmath.h. */
#include "bitmath.c"

__attribute__((const, noinline)) FLAC__uint32 width(FLAC__uint32 value)
{
	return 32 - FLAC__clz2_uint32(value);
}

__attribute__((const, noinline)) FLAC__uint32 wide_width(FLAC__uint64 value)
{
	return 64 - FLAC__clz2_uint64(value);
}

__attribute__((const, noinline)) FLAC__uint32 logarithm(FLAC__uint32 value)
{
	return FLAC__bitmath_ilog2(value);
}
