/* The one limit that is asked for. */
#define LONG_MAX 9223372036854775807L
