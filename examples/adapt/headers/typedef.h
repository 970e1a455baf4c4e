/* The integer types of the ETSI operators, in place of those of vo-amrwbenc, which have floating ones beside them. */
#ifndef __TYPEDEF_H__
#define __TYPEDEF_H__
typedef signed char Word8;
typedef short Word16;
typedef int Word32;
typedef int Flag;
#endif
