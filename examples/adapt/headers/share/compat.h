/* What bitmath.h uses of it. */
#define FLAC__U64L(x) x##ULL
