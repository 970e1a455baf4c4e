/* The five macros that an instrumented text uses. Put this file before the text, by `#include "mcdc.h"` or by the
   compiler's option `-include mcdc.h`; docs/TARGET.md says how to measure with it.

   It needs C99, includes nothing, takes no memory and defines no object. The text itself declares the registers:
   `unsigned mcdc_r [n]` in each function that has decisions or switches, so each activation has its own. A register
   changes only inside a called function. Calls do not interleave (C17 6.5.2.2p10), so the conditions of one decision
   may also stand under an operator that leaves the order of its operands open.

   Numbers of bits are below 65,536, and what a decision adds is below 4,096: 16 bits of `unsigned` are enough.

   A hit has two forms. Without MCDC_INLINE it is a call of `mcdc_hit`. With it a hit is one store of a byte, and
   MCDC_BITS is the number of the source's bits, or 1 where it has none. */
#ifndef MCDC_MACROS
#define MCDC_MACROS

#ifndef MCDC_INLINE

#define MCDC_FUNCTION static inline

/* Notes that a bit was hit. This is all that the macros ask of a host or board: mcdc_record.c has one, and you may
   write your own. */
void mcdc_hit(unsigned bit);

/* A condition has been evaluated: what is added depends on its truth. */
MCDC_FUNCTION int mcdc_condition(unsigned *sum, unsigned if_true, unsigned if_false, int truth) {
  *sum += truth ? if_true : if_false;
  return truth;
}

#else

#ifndef MCDC_BITS
#error "MCDC_INLINE needs MCDC_BITS, the number of bits of the source"
#endif

/* Each function goes into its caller, at each level of a compiler that knows this attribute. So no address of a register is
   left, and the compiler can keep it in one of its own. */
#ifdef __GNUC__
#define MCDC_FUNCTION static inline __attribute__((always_inline))
#else
#define MCDC_FUNCTION static inline
#endif

/* A byte for each bit, which is 1 where the bit was hit. It is all that the macros ask of a host or board: a driver of
   runtime/driver.sh has it. */
extern unsigned char mcdc_row[MCDC_BITS];

/* Notes that a bit was hit. */
MCDC_FUNCTION void mcdc_hit(unsigned bit) {
  if (bit < MCDC_BITS) mcdc_row[bit] = 1;
}

/* As above, with a way of its own for each truth: on it a compiler may know the sum. */
MCDC_FUNCTION int mcdc_condition(unsigned *sum, unsigned if_true, unsigned if_false, int truth) {
  if (!truth) {
    *sum += if_false;
    return 0;
  }
  *sum += if_true;
  return 1;
}

#endif

/* A decision begins: none of its conditions has been evaluated. */
MCDC_FUNCTION void mcdc_begin(unsigned *sum) {
  *sum = 0;
}

/* A decision has its outcome: the sum tells which path its conditions took. Where hits are stores, a way of its own for
   each outcome makes the code of gcc faster, and that of clang 19 slower (docs/MEASURED.md). Both do the same. */
MCDC_FUNCTION int mcdc_decision(const unsigned *sum, unsigned first, int outcome) {
#if defined(MCDC_INLINE) && defined(__GNUC__) && !defined(__clang__)
  if (outcome) {
    mcdc_hit(first + *sum);
    return 1;
  }
  mcdc_hit(first + *sum);
  return 0;
#else
  mcdc_hit(first + *sum);
  return outcome;
#endif
}

/* A switch begins: none of its labels has been chosen. */
MCDC_FUNCTION void mcdc_switch(unsigned *is_open) {
  *is_open = 1;
}

/* A label is reached: it is the chosen one where none was reached before. Else another label ran on into it. */
MCDC_FUNCTION void mcdc_label(unsigned *is_open, unsigned bit) {
  if (*is_open) {
    *is_open = 0;
    mcdc_hit(bit);
  }
}

/* MCDC_H ( b ) ;    An entry, an exit or a statement: hits bit b. */
#define MCDC_H(b) mcdc_hit(b)

/* MCDC_C ( r , t , f , e )    A condition: evaluates e in its own type; where it differs from 0, adds t to register r
   and is 1, else adds f and is 0. */
#define MCDC_C(r, t, f, e) mcdc_condition(mcdc_r + (r), (t), (f), (e) != 0)

/* MCDC_D ( r , b , e )    A decision: sets register r to 0, evaluates e, hits bit b + r, and is 1 or 0 as e is true or
   false. */
#define MCDC_D(r, b, e) (mcdc_begin(mcdc_r + (r)), mcdc_decision(mcdc_r + (r), (b), (e) != 0))

/* MCDC_W ( r , e )    The expression of a switch: sets register r to 1, and is e, in its own type. */
#define MCDC_W(r, e) (mcdc_switch(mcdc_r + (r)), (e))

/* MCDC_L ( r , b ) ;    After a label, or after a switch without `default`: where register r is not 0, sets it to 0 and
   hits bit b. */
#define MCDC_L(r, b) mcdc_label(mcdc_r + (r), (b))

#endif
