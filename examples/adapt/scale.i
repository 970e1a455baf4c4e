# 0 "scale.c"
# 0 "<built-in>"
# 0 "<command-line>"
# 1 "scale.c"

# 1 "vo-amrwbenc-0.1.3/amrwbenc/src/scale.c" 1
# 24 "vo-amrwbenc-0.1.3/amrwbenc/src/scale.c"
# 1 "headers/typedef.h" 1



typedef signed char Word8;
typedef short Word16;
typedef int Word32;
typedef int Flag;
# 25 "vo-amrwbenc-0.1.3/amrwbenc/src/scale.c" 2
# 1 "vo-amrwbenc-0.1.3/amrwbenc/inc/basic_op.h" 1
# 21 "vo-amrwbenc-0.1.3/amrwbenc/inc/basic_op.h"
# 1 "headers/stdio.h" 1
# 22 "vo-amrwbenc-0.1.3/amrwbenc/inc/basic_op.h" 2
# 1 "headers/stdlib.h" 1
# 23 "vo-amrwbenc-0.1.3/amrwbenc/inc/basic_op.h" 2
# 1 "vo-amrwbenc-0.1.3/amrwbenc/inc/typedef.h" 1
# 24 "vo-amrwbenc-0.1.3/amrwbenc/inc/basic_op.h" 2
# 68 "vo-amrwbenc-0.1.3/amrwbenc/inc/basic_op.h"
static __inline Word16 add (Word16 var1, Word16 var2);
static __inline Word16 sub (Word16 var1, Word16 var2);
static __inline Word16 shl (Word16 var1, Word16 var2);
static __inline Word16 shr (Word16 var1, Word16 var2);
static __inline Word16 mult (Word16 var1, Word16 var2);
static __inline Word32 L_mult (Word16 var1, Word16 var2);
static __inline Word16 voround (Word32 L_var1);
static __inline Word32 L_mac (Word32 L_var3, Word16 var1, Word16 var2);
static __inline Word32 L_msu (Word32 L_var3, Word16 var1, Word16 var2);
static __inline Word32 L_add (Word32 L_var1, Word32 L_var2);
static __inline Word32 L_sub (Word32 L_var1, Word32 L_var2);
static __inline Word16 mult_r (Word16 var1, Word16 var2);
static __inline Word32 L_shl2(Word32 L_var1, Word16 var2);
static __inline Word32 L_shl (Word32 L_var1, Word16 var2);
static __inline Word32 L_shr (Word32 L_var1, Word16 var2);
static __inline Word32 L_shr_r (Word32 L_var1, Word16 var2);
static __inline Word16 norm_s (Word16 var1);
static __inline Word16 div_s (Word16 var1, Word16 var2);
static __inline Word16 norm_l (Word32 L_var1);
# 126 "vo-amrwbenc-0.1.3/amrwbenc/inc/basic_op.h"
static __inline Word16 add (Word16 var1, Word16 var2)
{
 Word16 var_out;
 Word32 L_sum;
 L_sum = (Word32) var1 + var2;
 var_out = (((L_sum) > 0X00007fffL) ? ((Word16)+32767): (((L_sum) < (Word32) 0xffff8000L) ? ((Word16)-32768): ((L_sum) & 0xffff)));
 return (var_out);
}
# 169 "vo-amrwbenc-0.1.3/amrwbenc/inc/basic_op.h"
static __inline Word16 sub (Word16 var1, Word16 var2)
{
 Word16 var_out;
 Word32 L_diff;
 L_diff = (Word32) var1 - var2;
 var_out = (((L_diff) > 0X00007fffL) ? ((Word16)+32767): (((L_diff) < (Word32) 0xffff8000L) ? ((Word16)-32768): ((L_diff) & 0xffff)));
 return (var_out);
}
# 213 "vo-amrwbenc-0.1.3/amrwbenc/inc/basic_op.h"
static __inline Word16 shl (Word16 var1, Word16 var2)
{
 Word16 var_out;
 Word32 result;
 if (var2 < 0)
 {
  if (var2 < -16)
   var2 = -16;
  var_out = var1 >> ((Word16)-var2);
 }
 else
 {
  result = (Word32) var1 *((Word32) 1 << var2);
  if ((var2 > 15 && var1 != 0) || (result != (Word32) ((Word16) result)))
  {
   var_out = (Word16)((var1 > 0) ? (Word16)+32767 : (Word16)-32768);
  }
  else
  {
   var_out = (Word16)((result));
  }
 }
 return (var_out);
}
# 273 "vo-amrwbenc-0.1.3/amrwbenc/inc/basic_op.h"
static __inline Word16 shr (Word16 var1, Word16 var2)
{
 Word16 var_out;
 if (var2 < 0)
 {
  if (var2 < -16)
   var2 = -16;
  var_out = shl(var1, (Word16)-var2);
 }
 else
 {
  if (var2 >= 15)
  {
   var_out = (Word16)((var1 < 0) ? -1 : 0);
  }
  else
  {
   if (var1 < 0)
   {
    var_out = (Word16)(~((~var1) >> var2));
   }
   else
   {
    var_out = (Word16)(var1 >> var2);
   }
  }
 }
 return (var_out);
}
# 338 "vo-amrwbenc-0.1.3/amrwbenc/inc/basic_op.h"
static __inline Word16 mult (Word16 var1, Word16 var2)
{
 Word16 var_out;
 Word32 L_product;
 L_product = (Word32) var1 *(Word32) var2;
 L_product = (L_product & (Word32) 0xffff8000L) >> 15;
 if (L_product & (Word32) 0x00010000L)
  L_product = L_product | (Word32) 0xffff0000L;
 var_out = (((L_product) > 0X00007fffL) ? ((Word16)+32767): (((L_product) < (Word32) 0xffff8000L) ? ((Word16)-32768): ((L_product) & 0xffff)));
 return (var_out);
}
# 385 "vo-amrwbenc-0.1.3/amrwbenc/inc/basic_op.h"
static __inline Word32 L_mult (Word16 var1, Word16 var2)
{
 Word32 L_var_out;
 L_var_out = (Word32) var1 *(Word32) var2;
 if (L_var_out != (Word32) 0x40000000L)
 {
  L_var_out *= 2;
 }
 else
 {
  L_var_out = (Word32)0x7fffffffL;
 }
 return (L_var_out);
}
# 431 "vo-amrwbenc-0.1.3/amrwbenc/inc/basic_op.h"
static __inline Word16 voround (Word32 L_var1)
{
 Word16 var_out;
 Word32 L_rounded;
 L_rounded = L_add (L_var1, (Word32) 0x00008000L);
 var_out = ((Word16)(L_rounded >> 16));
 return (var_out);
}
# 477 "vo-amrwbenc-0.1.3/amrwbenc/inc/basic_op.h"
static __inline Word32 L_mac (Word32 L_var3, Word16 var1, Word16 var2)
{
 Word32 L_var_out;
 Word32 L_product;
 L_product = ((var1 * var2) << 1);
 L_var_out = L_add (L_var3, L_product);
 return (L_var_out);
}
# 523 "vo-amrwbenc-0.1.3/amrwbenc/inc/basic_op.h"
static __inline Word32 L_msu (Word32 L_var3, Word16 var1, Word16 var2)
{
 Word32 L_var_out;
 Word32 L_product;
 L_product = (var1 * var2)<<1;
 L_var_out = L_sub (L_var3, L_product);
 return (L_var_out);
}
# 564 "vo-amrwbenc-0.1.3/amrwbenc/inc/basic_op.h"
static __inline Word32 L_add (Word32 L_var1, Word32 L_var2)
{
 Word32 L_var_out;
 L_var_out = L_var1 + L_var2;
 if (((L_var1 ^ L_var2) & (Word32)0x80000000L) == 0)
 {
  if ((L_var_out ^ L_var1) & (Word32)0x80000000L)
  {
   L_var_out = (L_var1 < 0) ? (Word32)0x80000000L : (Word32)0x7fffffffL;
  }
 }
 return (L_var_out);
}
# 610 "vo-amrwbenc-0.1.3/amrwbenc/inc/basic_op.h"
static __inline Word32 L_sub (Word32 L_var1, Word32 L_var2)
{
 Word32 L_var_out;
 L_var_out = L_var1 - L_var2;
 if (((L_var1 ^ L_var2) & (Word32)0x80000000L) != 0)
 {
  if ((L_var_out ^ L_var1) & (Word32)0x80000000L)
  {
   L_var_out = (L_var1 < 0L) ? (Word32)0x80000000L : (Word32)0x7fffffffL;
  }
 }
 return (L_var_out);
}
# 659 "vo-amrwbenc-0.1.3/amrwbenc/inc/basic_op.h"
static __inline Word16 mult_r (Word16 var1, Word16 var2)
{
 Word16 var_out;
 Word32 L_product_arr;
 L_product_arr = (Word32) var1 *(Word32) var2;
 L_product_arr += (Word32) 0x00004000L;
 L_product_arr &= (Word32) 0xffff8000L;
 L_product_arr >>= 15;
 if (L_product_arr & (Word32) 0x00010000L)
 {
  L_product_arr |= (Word32) 0xffff0000L;
 }
 var_out = (((L_product_arr) > 0X00007fffL) ? ((Word16)+32767): (((L_product_arr) < (Word32) 0xffff8000L) ? ((Word16)-32768): ((L_product_arr) & 0xffff)));
 return (var_out);
}
# 709 "vo-amrwbenc-0.1.3/amrwbenc/inc/basic_op.h"
static __inline Word32 L_shl (Word32 L_var1, Word16 var2)
{
 Word32 L_var_out = 0L;
 if (var2 <= 0)
 {
  if (var2 < -32)
   var2 = -32;
  L_var_out = (L_var1 >> (Word16)-var2);
 }
 else
 {
  for (; var2 > 0; var2--)
  {
   if (L_var1 > (Word32) 0X3fffffffL)
   {
    L_var_out = (Word32)0x7fffffffL;
    break;
   }
   else
   {
    if (L_var1 < (Word32) 0xc0000000L)
    {

     L_var_out = (Word32)0x80000000L;
     break;
    }
   }
   L_var1 *= 2;
   L_var_out = L_var1;
  }
 }
 return (L_var_out);
}

static __inline Word32 L_shl2(Word32 L_var1, Word16 var2)
{
 Word32 L_var_out = 0L;

 for (; var2 > 0; var2--)
 {
  if (L_var1 > (Word32) 0X3fffffffL)
  {
   L_var_out = (Word32)0x7fffffffL;
   break;
  }
  else
  {
   if (L_var1 < (Word32) 0xc0000000L)
   {
    L_var_out = (Word32)0x80000000L;
    break;
   }
  }
  L_var1 <<=1 ;
  L_var_out = L_var1;
 }
 return (L_var_out);
}
# 802 "vo-amrwbenc-0.1.3/amrwbenc/inc/basic_op.h"
static __inline Word32 L_shr (Word32 L_var1, Word16 var2)
{
 Word32 L_var_out;
 if (var2 < 0)
 {
  if (var2 < -32)
   var2 = -32;
  L_var_out = L_shl2(L_var1, (Word16)-var2);
 }
 else
 {
  if (var2 >= 31)
  {
   L_var_out = (L_var1 < 0L) ? -1 : 0;
  }
  else
  {
   if (L_var1 < 0)
   {
    L_var_out = ~((~L_var1) >> var2);
   }
   else
   {
    L_var_out = L_var1 >> var2;
   }
  }
 }
 return (L_var_out);
}
# 874 "vo-amrwbenc-0.1.3/amrwbenc/inc/basic_op.h"
static __inline Word32 L_shr_r (Word32 L_var1, Word16 var2)
{
 Word32 L_var_out;
 if (var2 > 31)
 {
  L_var_out = 0;
 }
 else
 {
  L_var_out = L_shr (L_var1, var2);
  if (var2 > 0)
  {
   if ((L_var1 & ((Word32) 1 << (var2 - 1))) != 0)
   {
    L_var_out++;
   }
  }
 }
 return (L_var_out);
}
# 928 "vo-amrwbenc-0.1.3/amrwbenc/inc/basic_op.h"
static __inline Word16 norm_s (Word16 var1)
{
 Word16 var_out = 0;
 if (var1 == 0)
 {
  var_out = 0;
 }
 else
 {
  if (var1 == -1)
  {
   var_out = 15;
  }
  else
  {
   if (var1 < 0)
   {
    var1 = (Word16)~var1;
   }
   for (var_out = 0; var1 < 0x4000; var_out++)
   {
    var1 <<= 1;
   }
  }
 }
 return (var_out);
}
# 993 "vo-amrwbenc-0.1.3/amrwbenc/inc/basic_op.h"
static __inline Word16 div_s (Word16 var1, Word16 var2)
{
 Word16 var_out = 0;
 Word16 iteration;
 Word32 L_num;
 Word32 L_denom;
 if ((var1 < 0) || (var2 < 0))
 {
  var_out = (Word16)+32767;
  return var_out;
 }
 if (var2 == 0)
 {
  var_out = (Word16)+32767;
  return var_out;
 }
 if (var1 == 0)
 {
  var_out = 0;
 }
 else
 {
  if (var1 == var2)
  {
   var_out = (Word16)+32767;
  }
  else
  {
   L_num = ((Word32)(var1));
   L_denom = ((Word32)(var2));
   for (iteration = 0; iteration < 15; iteration++)
   {
    var_out <<= 1;
    L_num <<= 1;
    if (L_num >= L_denom)
    {
     L_num -= L_denom;
     var_out += 1;
    }
   }
  }
 }
 return (var_out);
}
# 1071 "vo-amrwbenc-0.1.3/amrwbenc/inc/basic_op.h"
static __inline Word16 norm_l (Word32 L_var1)
{
 Word16 var_out = 0;
 if (L_var1 != 0)
 {
  var_out = 31;
  if (L_var1 != (Word32) 0xffffffffL)
  {
   L_var1 ^= (L_var1 >>31);
   for (var_out = 0; L_var1 < (Word32) 0x40000000L; var_out++)
   {
    L_var1 <<= 1;
   }
  }
 }
 return (var_out);
}
# 26 "vo-amrwbenc-0.1.3/amrwbenc/src/scale.c" 2

void Scale_sig(
  Word16 x[],
  Word16 lg,
  Word16 exp
       )
{
 Word32 i;
 Word32 L_tmp;
 if(exp > 0)
 {
  for (i = lg - 1 ; i >= 0; i--)
  {
   L_tmp = L_shl2(x[i], 16 + exp);
   x[i] = ((Word16)(L_add(L_tmp, 0x8000) >> 16));
  }
 }
 else
 {
  exp = -exp;
  for (i = lg - 1; i >= 0; i--)
  {
   L_tmp = x[i] << 16;
   L_tmp >>= exp;
   x[i] = (L_tmp + 0x8000)>>16;
  }
 }
 return;
}
# 3 "scale.c" 2

static Word16 samples[3];

void set_sample(Word16 place, Word16 value)
{
 samples[place] = value;
}

void scale(Word16 exponent)
{
 Scale_sig(samples, 3, exponent);
}

Word16 sample(Word16 place)
{
 return samples[place];
}
