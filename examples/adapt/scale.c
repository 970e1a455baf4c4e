/* For tests alone: the function of scale.c has an array as a parameter, and a test gives numbers. */
#include "vo-amrwbenc-0.1.3/amrwbenc/src/scale.c"

static Word16 samples[3];

void set_sample(Word16 place, Word16 value)
{
	samples[place] = value;
}

void scale(Word16 exponent)
{
	Scale_sig(samples, 3, exponent);
}

Word16 sample(Word16 place)
{
	return samples[place];
}
