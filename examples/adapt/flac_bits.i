# 0 "flac_bits.c"
# 0 "<built-in>"
# 0 "<command-line>"
# 1 "flac_bits.c"

# 1 "flac-1.4.2+ds/src/libFLAC/bitmath.c" 1
# 37 "flac-1.4.2+ds/src/libFLAC/bitmath.c"
# 1 "flac-1.4.2+ds/src/libFLAC/include/private/bitmath.h" 1
# 36 "flac-1.4.2+ds/src/libFLAC/include/private/bitmath.h"
# 1 "flac-1.4.2+ds/include/FLAC/ordinals.h" 1
# 55 "flac-1.4.2+ds/include/FLAC/ordinals.h"
# 1 "headers/stdint.h" 1

typedef signed char int8_t;
typedef unsigned char uint8_t;
typedef short int16_t;
typedef unsigned short uint16_t;
typedef int int32_t;
typedef unsigned int uint32_t;
typedef long int64_t;
typedef unsigned long uint64_t;
# 56 "flac-1.4.2+ds/include/FLAC/ordinals.h" 2

typedef int8_t FLAC__int8;
typedef uint8_t FLAC__uint8;

typedef int16_t FLAC__int16;
typedef int32_t FLAC__int32;
typedef int64_t FLAC__int64;
typedef uint16_t FLAC__uint16;
typedef uint32_t FLAC__uint32;
typedef uint64_t FLAC__uint64;



typedef int FLAC__bool;

typedef FLAC__uint8 FLAC__byte;
# 37 "flac-1.4.2+ds/src/libFLAC/include/private/bitmath.h" 2
# 1 "flac-1.4.2+ds/include/FLAC/assert.h" 1
# 38 "flac-1.4.2+ds/src/libFLAC/include/private/bitmath.h" 2

# 1 "headers/share/compat.h" 1
# 40 "flac-1.4.2+ds/src/libFLAC/include/private/bitmath.h" 2






static inline uint32_t FLAC__clz_soft_uint32(FLAC__uint32 word)
{
 static const uint8_t byte_to_unary_table[] = {
 8, 7, 6, 6, 5, 5, 5, 5, 4, 4, 4, 4, 4, 4, 4, 4,
 3, 3, 3, 3, 3, 3, 3, 3, 3, 3, 3, 3, 3, 3, 3, 3,
 2, 2, 2, 2, 2, 2, 2, 2, 2, 2, 2, 2, 2, 2, 2, 2,
 2, 2, 2, 2, 2, 2, 2, 2, 2, 2, 2, 2, 2, 2, 2, 2,
 1, 1, 1, 1, 1, 1, 1, 1, 1, 1, 1, 1, 1, 1, 1, 1,
 1, 1, 1, 1, 1, 1, 1, 1, 1, 1, 1, 1, 1, 1, 1, 1,
 1, 1, 1, 1, 1, 1, 1, 1, 1, 1, 1, 1, 1, 1, 1, 1,
 1, 1, 1, 1, 1, 1, 1, 1, 1, 1, 1, 1, 1, 1, 1, 1,
 0, 0, 0, 0, 0, 0, 0, 0, 0, 0, 0, 0, 0, 0, 0, 0,
 0, 0, 0, 0, 0, 0, 0, 0, 0, 0, 0, 0, 0, 0, 0, 0,
 0, 0, 0, 0, 0, 0, 0, 0, 0, 0, 0, 0, 0, 0, 0, 0,
 0, 0, 0, 0, 0, 0, 0, 0, 0, 0, 0, 0, 0, 0, 0, 0,
 0, 0, 0, 0, 0, 0, 0, 0, 0, 0, 0, 0, 0, 0, 0, 0,
 0, 0, 0, 0, 0, 0, 0, 0, 0, 0, 0, 0, 0, 0, 0, 0,
 0, 0, 0, 0, 0, 0, 0, 0, 0, 0, 0, 0, 0, 0, 0, 0,
 0, 0, 0, 0, 0, 0, 0, 0, 0, 0, 0, 0, 0, 0, 0, 0,
 };

 return word > 0xffffff ? byte_to_unary_table[word >> 24] :
  word > 0xffff ? byte_to_unary_table[word >> 16] + 8 :
  word > 0xff ? byte_to_unary_table[word >> 8] + 16 :
  byte_to_unary_table[word] + 24;
}

static inline uint32_t FLAC__clz_uint32(FLAC__uint32 v)
{

 ;
# 90 "flac-1.4.2+ds/src/libFLAC/include/private/bitmath.h"
 return FLAC__clz_soft_uint32(v);

}


static inline uint32_t FLAC__clz_soft_uint64(FLAC__uint64 word)
{
 return (FLAC__uint32)(word>>32) ? FLAC__clz_uint32((FLAC__uint32)(word>>32)) :
  FLAC__clz_uint32((FLAC__uint32)word) + 32;
}

static inline uint32_t FLAC__clz_uint64(FLAC__uint64 v)
{

 ;
# 114 "flac-1.4.2+ds/src/libFLAC/include/private/bitmath.h"
 return FLAC__clz_soft_uint64(v);

}


static inline uint32_t FLAC__clz2_uint32(FLAC__uint32 v)
{
 if (!v)
  return 32;
 return FLAC__clz_uint32(v);
}

static inline uint32_t FLAC__clz2_uint64(FLAC__uint64 v)
{
 if (!v)
  return 64;
 return FLAC__clz_uint64(v);
}
# 156 "flac-1.4.2+ds/src/libFLAC/include/private/bitmath.h"
static inline uint32_t FLAC__bitmath_ilog2(FLAC__uint32 v)
{
 ;
# 168 "flac-1.4.2+ds/src/libFLAC/include/private/bitmath.h"
 return FLAC__clz_uint32(v) ^ 31U;

}

static inline uint32_t FLAC__bitmath_ilog2_wide(FLAC__uint64 v)
{
 ;
# 189 "flac-1.4.2+ds/src/libFLAC/include/private/bitmath.h"
 {
  static const uint8_t DEBRUIJN_IDX64[64]={
   0, 1, 2, 7, 3,13, 8,19, 4,25,14,28, 9,34,20,40,
   5,17,26,38,15,46,29,48,10,31,35,54,21,50,41,57,
   63, 6,12,18,24,27,33,39,16,37,45,47,30,53,49,56,
   62,11,23,32,36,44,52,55,61,22,43,51,60,42,59,58
  };
  v|= v>>1;
  v|= v>>2;
  v|= v>>4;
  v|= v>>8;
  v|= v>>16;
  v|= v>>32;
  v= (v>>1)+1;
  return DEBRUIJN_IDX64[v*0x218A392CD3D5DBFULL>>58&0x3F];
 }

}

uint32_t FLAC__bitmath_silog2(FLAC__int64 v);
# 38 "flac-1.4.2+ds/src/libFLAC/bitmath.c" 2
# 63 "flac-1.4.2+ds/src/libFLAC/bitmath.c"
uint32_t FLAC__bitmath_silog2(FLAC__int64 v)
{
 if(v == 0)
  return 0;

 if(v == -1)
  return 2;

 v = (v < 0) ? (-(v+1)) : v;
 return FLAC__bitmath_ilog2_wide(v)+2;
}
# 3 "flac_bits.c" 2

__attribute__((const, noinline)) FLAC__uint32 width(FLAC__uint32 value)
{
 return 32 - FLAC__clz2_uint32(value);
}

__attribute__((const, noinline)) FLAC__uint32 wide_width(FLAC__uint64 value)
{
 return 64 - FLAC__clz2_uint64(value);
}

__attribute__((const, noinline)) FLAC__uint32 logarithm(FLAC__uint32 value)
{
 return FLAC__bitmath_ilog2(value);
}
