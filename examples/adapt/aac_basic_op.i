# 0 "aac_basic_op.c"
# 0 "<built-in>"
# 0 "<command-line>"
# 1 "aac_basic_op.c"

#pragma GCC diagnostic ignored "-Wunused-function"
# 1 "vo-aacenc-0.1.3/aacenc/basic_op/basic_op.h" 1
# 26 "vo-aacenc-0.1.3/aacenc/basic_op/basic_op.h"
# 1 "vo-aacenc-0.1.3/aacenc/basic_op/typedef.h" 1
# 58 "vo-aacenc-0.1.3/aacenc/basic_op/typedef.h"
# 1 "vo-aacenc-0.1.3/aacenc/basic_op/typedefs.h" 1
# 62 "vo-aacenc-0.1.3/aacenc/basic_op/typedefs.h"
typedef char Char;




typedef signed char Word8;
typedef unsigned char UWord8;



typedef short Word16;
typedef unsigned short UWord16;




typedef int Word32;
typedef unsigned int UWord32;




typedef long long Word64;
typedef unsigned long long UWord64;
# 59 "vo-aacenc-0.1.3/aacenc/basic_op/typedef.h" 2
typedef int Flag;
# 27 "vo-aacenc-0.1.3/aacenc/basic_op/basic_op.h" 2
# 63 "vo-aacenc-0.1.3/aacenc/basic_op/basic_op.h"
static __inline Word32 saturate(Word32 L_var1);






static __inline Word32 shl (Word32 var1, Word32 var2);






static __inline Word32 shr (Word32 var1, Word32 var2);





static __inline Word32 L_mult(Word32 var1, Word32 var2);






static __inline Word32 L_msu (Word32 L_var3, Word32 var1, Word32 var2);






static __inline Word32 L_sub(Word32 L_var1, Word32 L_var2);






static __inline Word32 L_shl (Word32 L_var1, Word32 var2);






static __inline Word32 L_shr (Word32 L_var1, Word32 var2);






static __inline Word32 add (Word32 var1, Word32 var2);






static __inline Word32 sub(Word32 var1, Word32 var2);






static __inline Word32 div_s (Word32 var1, Word32 var2);






static __inline Word32 mult (Word32 var1, Word32 var2);






static __inline Word32 norm_s (Word32 var1);






static __inline Word32 norm_l (Word32 L_var1);






static __inline Word32 round16(Word32 L_var1);






static __inline Word32 L_mac (Word32 L_var3, Word32 var1, Word32 var2);





static __inline Word32 L_add (Word32 L_var1, Word32 L_var2);






static __inline Word32 extract_h (Word32 L_var1);






static __inline Word32 extract_l(Word32 L_var1);






static __inline Word32 mult_r(Word32 var1, Word32 var2);






static __inline Word32 shr_r (Word32 var1, Word32 var2);






static __inline Word32 mac_r (Word32 L_var3, Word32 var1, Word32 var2);






static __inline Word32 msu_r (Word32 L_var3, Word32 var1, Word32 var2);






static __inline Word32 L_shr_r (Word32 L_var1, Word32 var2);
# 296 "vo-aacenc-0.1.3/aacenc/basic_op/basic_op.h"
static __inline Word32 saturate(Word32 L_var1)
{
# 320 "vo-aacenc-0.1.3/aacenc/basic_op/basic_op.h"
    Word32 var_out;



    if (L_var1 > 0X00007fffL)
    {
        var_out = (Word16)0x7fff;
    }
    else if (L_var1 < (Word32) 0xffff8000L)
    {
        var_out = (Word16)0x8000;
    }
    else
    {
        var_out = extract_l(L_var1);
    }

    return (var_out);

}




static __inline Word32 shl (Word32 var1, Word32 var2)
{
# 356 "vo-aacenc-0.1.3/aacenc/basic_op/basic_op.h"
    Word32 var_out;
    Word32 result;

    if (var2 < 0)
    {
        var_out = shr (var1, (Word16)-var2);
    }
    else
    {
        result = (Word32) var1 *((Word32) 1 << var2);

        if ((var2 > 15 && var1 != 0) || (result != (Word32) ((Word16) result)))
        {
            var_out = (Word16)((var1 > 0) ? (Word16)0x7fff : (Word16)0x8000);
        }
        else
        {
            var_out = extract_l(result);
        }
    }
    return (var_out);

}




static __inline Word32 shr (Word32 var1, Word32 var2)
{
# 395 "vo-aacenc-0.1.3/aacenc/basic_op/basic_op.h"
    Word32 var_out;

    if (var2 < 0)
    {
        var_out = shl (var1, (Word16)-var2);
    }
    else
    {
        if (var2 >= 15)
        {
            var_out = (Word16)((var1 < 0) ? -1 : 0);
        }
        else
        {
            if (var1 < 0)
            {
                var_out = (Word16)(~((~var1) >> var2));
            }
            else
            {
                var_out = (Word16)(var1 >> var2);
            }
        }
    }

    return (var_out);

}




static __inline Word32 L_mult(Word32 var1, Word32 var2)
{
# 439 "vo-aacenc-0.1.3/aacenc/basic_op/basic_op.h"
    Word32 L_var_out;

    L_var_out = (Word32) var1 *(Word32) var2;

    if (L_var_out != (Word32) 0x40000000L)
    {
        L_var_out <<= 1;
    }
    else
    {
        L_var_out = (Word32)0x7fffffffL;
    }
    return (L_var_out);

}



static __inline Word32 L_msu (Word32 L_var3, Word32 var1, Word32 var2)
{
# 469 "vo-aacenc-0.1.3/aacenc/basic_op/basic_op.h"
    Word32 L_var_out;
    Word32 L_product;

    L_product = L_mult(var1, var2);
    L_var_out = L_sub(L_var3, L_product);
    return (L_var_out);

}



static __inline Word32 L_sub(Word32 L_var1, Word32 L_var2)
{
# 491 "vo-aacenc-0.1.3/aacenc/basic_op/basic_op.h"
    Word32 L_var_out;

    L_var_out = L_var1 - L_var2;

    if (((L_var1 ^ L_var2) & (Word32)0x80000000L) != 0)
    {
        if ((L_var_out ^ L_var1) & (Word32)0x80000000L)
        {
            L_var_out = (L_var1 < 0L) ? (Word32)0x80000000L : (Word32)0x7fffffffL;
        }
    }

    return (L_var_out);

}



static __inline Word32 L_shl(Word32 L_var1, Word32 var2)
{
# 521 "vo-aacenc-0.1.3/aacenc/basic_op/basic_op.h"
    Word32 L_var_out = 0L;

    if (var2 <= 0)
    {
        L_var1 = L_shr(L_var1, (Word16)-var2);
    }
    else
    {
        for (; var2 > 0; var2--)
        {
            if (L_var1 > (Word32) 0X3fffffffL)
            {
                return (Word32)0x7fffffffL;
            }
            else
            {
                if (L_var1 < (Word32) 0xc0000000L)
                {
                    return (Word32)0x80000000L;
                }
            }
            L_var1 <<= 1;
            L_var_out = L_var1;
        }
    }
    return (L_var1);

}



static __inline Word32 L_shr (Word32 L_var1, Word32 var2)
{
# 564 "vo-aacenc-0.1.3/aacenc/basic_op/basic_op.h"
    Word32 L_var_out;

    if (var2 < 0)
    {
        L_var_out = L_shl (L_var1, (Word16)-var2);
    }
    else
    {
        if (var2 >= 31)
        {
            L_var_out = (L_var1 < 0L) ? -1 : 0;
        }
        else
        {
            if (L_var1 < 0)
            {
                L_var_out = ~((~L_var1) >> var2);
            }
            else
            {
                L_var_out = L_var1 >> var2;
            }
        }
    }
    return (L_var_out);

}




static __inline Word32 add (Word32 var1, Word32 var2)
{
# 610 "vo-aacenc-0.1.3/aacenc/basic_op/basic_op.h"
    Word32 var_out;
    Word32 L_sum;

    L_sum = (Word32) var1 + var2;
    var_out = saturate(L_sum);

    return (var_out);

}




static __inline Word32 sub(Word32 var1, Word32 var2)
{
# 638 "vo-aacenc-0.1.3/aacenc/basic_op/basic_op.h"
    Word32 var_out;
    Word32 L_diff;

    L_diff = (Word32) var1 - var2;
    var_out = saturate(L_diff);

    return (var_out);

}




static __inline Word32 div_s (Word32 var1, Word32 var2)
{
    Word32 var_out = 0;
    Word32 iteration;
    Word32 L_num;
    Word32 L_denom;

    var_out = (Word16)0x7fff;
    if (var1!= var2)
    {
     var_out = 0;
     L_num = (Word32) var1;

     L_denom = (Word32) var2;



     for (iteration = 0; iteration < 15; iteration++)
     {
      var_out <<= 1;
      L_num <<= 1;

      if (L_num >= L_denom)
      {
       L_num -= L_denom;
       var_out++;
      }
     }
    }
    return (var_out);
}




static __inline Word32 mult (Word32 var1, Word32 var2)
{
# 710 "vo-aacenc-0.1.3/aacenc/basic_op/basic_op.h"
    Word32 var_out;
    Word32 L_product;

    L_product = (Word32) var1 *(Word32) var2;
    L_product = (L_product & (Word32) 0xffff8000L) >> 15;
    if (L_product & (Word32) 0x00010000L)
        L_product = L_product | (Word32) 0xffff0000L;
    var_out = saturate(L_product);

    return (var_out);

}





static __inline Word32 norm_s (Word32 var1)
{
# 745 "vo-aacenc-0.1.3/aacenc/basic_op/basic_op.h"
    Word32 var_out;

    if (var1 == 0)
    {
        var_out = 0;
    }
    else
    {
        if (var1 == -1)
        {
            var_out = 15;
        }
        else
        {
            if (var1 < 0)
            {
                var1 = (Word16)~var1;
            }
            for (var_out = 0; var1 < 0x4000; var_out++)
            {
                var1 <<= 1;
            }
        }
    }
    return (var_out);

}




static __inline Word32 norm_l (Word32 L_var1)
{
# 815 "vo-aacenc-0.1.3/aacenc/basic_op/basic_op.h"
  Word16 a16;
  Word16 r = 0 ;


  if ( L_var1 < 0 ) {
    L_var1 = ~L_var1;
  }

  if (0 == (L_var1 & 0x7fff8000)) {
    a16 = extract_l(L_var1);
    r += 16;

    if (0 == (a16 & 0x7f80)) {
      r += 8;

      if (0 == (a16 & 0x0078)) {
        r += 4;

        if (0 == (a16 & 0x0006)) {
          r += 2;

          if (0 == (a16 & 0x0001)) {
            r += 1;
          }
        }
        else {

          if (0 == (a16 & 0x0004)) {
            r += 1;
          }
        }
      }
      else {

        if (0 == (a16 & 0x0060)) {
          r += 2;

          if (0 == (a16 & 0x0010)) {
            r += 1;
          }
        }
        else {

          if (0 == (a16 & 0x0040)) {
            r += 1;
          }
        }
      }
    }
    else {

      if (0 == (a16 & 0x7800)) {
        r += 4;

        if (0 == (a16 & 0x0600)) {
          r += 2;

          if (0 == (a16 & 0x0100)) {
            r += 1;
          }
        }
        else {

          if (0 == (a16 & 0x0400)) {
            r += 1;
          }
        }
      }
      else {

        if (0 == (a16 & 0x6000)) {
          r += 2;

          if (0 == (a16 & 0x1000)) {
            r += 1;
          }
        }
        else {

          if (0 == (a16 & 0x4000)) {
            r += 1;
          }
        }
      }
    }
  }
  else {
    a16 = extract_h(L_var1);

    if (0 == (a16 & 0x7f80)) {
      r += 8;

      if (0 == (a16 & 0x0078)) {
        r += 4 ;

        if (0 == (a16 & 0x0006)) {
          r += 2;

          if (0 == (a16 & 0x0001)) {
            r += 1;
          }
        }
        else {

          if (0 == (a16 & 0x0004)) {
            r += 1;
          }
        }
      }
      else {

        if (0 == (a16 & 0x0060)) {
          r += 2;

          if (0 == (a16 & 0x0010)) {
            r += 1;
          }
        }
        else {

          if (0 == (a16 & 0x0040)) {
            r += 1;
          }
        }
      }
    }
    else {

      if (0 == (a16 & 0x7800)) {
        r += 4;

        if (0 == (a16 & 0x0600)) {
          r += 2;

          if (0 == (a16 & 0x0100)) {
            r += 1;
          }
        }
        else {

          if (0 == (a16 & 0x0400)) {
            r += 1;
          }
        }
      }
      else {

        if (0 == (a16 & 0x6000)) {
          r += 2;

          if (0 == (a16 & 0x1000)) {
            r += 1;
          }
        }
        else {

          if (0 == (a16 & 0x4000)) {
            return 1;
          }
        }
      }
    }
  }

  return r ;

}




static __inline Word32 round16(Word32 L_var1)
{
# 998 "vo-aacenc-0.1.3/aacenc/basic_op/basic_op.h"
    Word32 var_out;
    Word32 L_rounded;

    L_rounded = L_add (L_var1, (Word32) 0x00008000L);
    var_out = extract_h (L_rounded);
    return (var_out);

}




static __inline Word32 L_mac (Word32 L_var3, Word32 var1, Word32 var2)
{
# 1022 "vo-aacenc-0.1.3/aacenc/basic_op/basic_op.h"
    Word32 L_var_out;
    Word32 L_product;

    L_product = L_mult(var1, var2);
    L_var_out = L_add (L_var3, L_product);
    return (L_var_out);

}



static __inline Word32 L_add (Word32 L_var1, Word32 L_var2)
{
# 1044 "vo-aacenc-0.1.3/aacenc/basic_op/basic_op.h"
    Word32 L_var_out;

    L_var_out = L_var1 + L_var2;
    if (((L_var1 ^ L_var2) & (Word32)0x80000000L) == 0)
    {
        if ((L_var_out ^ L_var1) & (Word32)0x80000000L)
        {
            L_var_out = (L_var1 < 0) ? (Word32)0x80000000L : (Word32)0x7fffffffL;
        }
    }
    return (L_var_out);

}





static __inline Word32 mult_r (Word32 var1, Word32 var2)
{
    Word32 var_out;
    Word32 L_product_arr;

    L_product_arr = (Word32)var1 *(Word32)var2;
    L_product_arr += (Word32)0x00004000L;
    L_product_arr >>= 15;

    var_out = saturate(L_product_arr);

    return (var_out);
}



static __inline Word32 shr_r (Word32 var1, Word32 var2)
{
    Word32 var_out;

    if (var2 > 15)
    {
        var_out = 0;
    }
    else
    {
        var_out = shr(var1, var2);

        if (var2 > 0)
        {
            if ((var1 & ((Word16) 1 << (var2 - 1))) != 0)
            {
                var_out++;
            }
        }
    }

    return (var_out);
}



static __inline Word32 mac_r (Word32 L_var3, Word32 var1, Word32 var2)
{
    Word32 var_out;

    L_var3 = L_mac (L_var3, var1, var2);
    var_out = (Word16)((L_var3 + 0x8000L) >> 16);

    return (var_out);
}



static __inline Word32 msu_r (Word32 L_var3, Word32 var1, Word32 var2)
{
    Word32 var_out;

    L_var3 = L_msu (L_var3, var1, var2);
    var_out = (Word16)((L_var3 + 0x8000L) >> 16);

    return (var_out);
}



static __inline Word32 L_shr_r (Word32 L_var1, Word32 var2)
{
    Word32 L_var_out;

    if (var2 > 31)
    {
        L_var_out = 0;
    }
    else
    {
        L_var_out = L_shr(L_var1, var2);

        if (var2 > 0)
        {
            if ((L_var1 & ((Word32) 1 << (var2 - 1))) != 0)
            {
                L_var_out++;
            }
        }
    }

    return (L_var_out);
}



static __inline Word32 extract_h (Word32 L_var1)
{
    Word32 var_out;

    var_out = (L_var1 >> 16);

    return (var_out);
}



static __inline Word32 extract_l(Word32 L_var1)
{
 return (Word16) L_var1;
}
# 4 "aac_basic_op.c" 2

Word32 all_operators(Word32 a, Word32 b)
{
    register Word32 sum;

    sum = add(a, b) + sub(a, b) + mult(a, b) + mult_r(a, b) + div_s(b, a);
    sum += shl(a, b) + shr(a, b) + shr_r(a, b) + norm_s(a) + saturate(a);
    sum += L_add(a, b) + L_sub(a, b) + L_mult(a, b) + L_mac(sum, a, b) + L_msu(sum, a, b);
    sum += L_shl(a, b) + L_shr(a, b) + L_shr_r(a, b) + norm_l(a);
    sum += mac_r(sum, a, b) + msu_r(sum, a, b) + round16(sum) + extract_h(sum) + extract_l(sum);
    return sum;
}
