/* For tests alone: gpclip.c has arrays as parameters, and a test gives numbers. */
#include "gpclip.c"

static Word16 memory[2];
static Word16 isfs[M];

void begin()
{
	Init_gp_clip(memory);
}

void set_isf(Word16 place, Word16 value)
{
	isfs[place] = value;
}

Word16 distance()
{
	Gp_clip_test_isf(isfs, memory);
	return memory[0];
}

Word16 gain(register Word16 pitch)
{
	Gp_clip_test_gain_pit(pitch, memory);
	return memory[1];
}

Word16 clips()
{
	return Gp_clip(memory);
}
