/* A host of an instrumented program: keeps which bits were hit under which test, and writes them as a record, which
   `mcdc merge` and `mcdc analyse` read. It takes no memory but the driver's. With MCDC_BOARD it includes nothing but
   its own headers, and the board has `mcdc_put` and `main`; with MCDC_LOG it tells on standard error what each call gave;
   with MCDC_INLINE hits are stores into `mcdc_row` in place of calls. */
#ifndef MCDC_INLINE
#include "mcdc.h"
#endif
#include "mcdc_record.h"

#ifndef MCDC_BOARD
#include <stdio.h>
#include <stdlib.h>
#endif

static unsigned run;        /* how many tests were begun since a record was written; the last is the present one */
static int is_open;         /* whether hits count: a test has begun and has not ended in itself */
static const int *inputs;   /* what mcdc_in gives next, and how many are left */
static unsigned inputs_left;
static unsigned outputs;    /* how many numbers the present test has put out */
static const int *expected; /* what mcdc_out has to get next in the present call, and how many are left */
static int expected_left;   /* below 0 where anything may come */
static unsigned long long value;
static int is_negative;

static void fail(void) {
  if (is_open) mcdc_states[run - 1] = "fail";
}

#ifdef MCDC_INLINE
/* What the present test has hit goes into its row. */
static void keep(void) {
  if (!is_open) return;
  for (unsigned long bit = 0; bit < mcdc_bits; bit++)
    if (mcdc_row[bit]) mcdc_hits[(run - 1) * mcdc_row_bytes + bit / 8] |= 1u << bit % 8;
}

/* What was hit before a test begins is not its own. */
static void forget(void) {
  for (unsigned long bit = 0; bit < mcdc_bits; bit++) mcdc_row[bit] = 0;
}
#else
static void keep(void) {}

static void forget(void) {}

void mcdc_hit(unsigned bit) {
  if (is_open && bit < mcdc_bits) mcdc_hits[(run - 1) * mcdc_row_bytes + bit / 8] |= 1u << bit % 8;
}
#endif

/* The test ends here for what is recorded, although the program goes on. */
static void end(const char *state) {
  keep();
  if (is_open) mcdc_states[run - 1] = state;
  is_open = 0;
}

void mcdc_test(const char *name, const int *numbers, unsigned count) {
  keep();
  is_open = run < mcdc_rows;
  if (!is_open) return;
  forget();
  for (unsigned long at = 0; at < mcdc_row_bytes; at++) mcdc_hits[run * mcdc_row_bytes + at] = 0;
  mcdc_names[run] = name;
  mcdc_states[run] = "pass";
  run++;
  inputs = numbers;
  inputs_left = count;
  outputs = 0;
}

void mcdc_call(const int *numbers, int count) {
  expected = numbers;
  expected_left = count;
}

void mcdc_returned_void(void) {
  if (expected_left > 0) fail();
#ifdef MCDC_LOG
  fprintf(stderr, "returned void\n");
#endif
}

void mcdc_returned(unsigned long long given, int is_signed) {
  if (expected_left > 0) fail();
  value = given;
  is_negative = is_signed && given >> 63 != 0;
#ifdef MCDC_LOG
  if (is_negative) fprintf(stderr, "returned -%llu\n", 0 - value);
  else fprintf(stderr, "returned %llu\n", value);
#endif
}

void mcdc_expect(unsigned long long number, int is_below_zero) {
  if (value != number || is_negative != is_below_zero) fail();
}

int mcdc_in(void) {
  if (inputs_left == 0) {
    end("trap-input-end");
    return 0;
  }
  inputs_left--;
  return *inputs++;
}

void mcdc_out(int number) {
  if (outputs == 4096) {
    end("output-full");
    return;
  }
  outputs++;
  if (expected_left == 0 || (expected_left > 0 && *expected != number)) fail();
  if (expected_left > 0) {
    expected++;
    expected_left--;
  }
#ifdef MCDC_LOG
  fprintf(stderr, "output %d\n", number);
#endif
}

static void put_text(const char *text) {
  while (*text) mcdc_put(*text++);
}

static void put_number(unsigned long number) {
  if (number >= 10) put_number(number / 10);
  mcdc_put((char)('0' + number % 10));
}

static unsigned is_hit(unsigned test, unsigned long bit) {
  return test < run ? mcdc_hits[test * mcdc_row_bytes + bit / 8] >> bit % 8 & 1u : 0;
}

/* A word of 64 tests as 16 hexadecimal digits, the highest first; the lowest is that of the first four tests. */
static void put_word(unsigned first, unsigned long bit) {
  for (unsigned digit = 16; digit > 0; digit--) {
    unsigned number = 0;
    for (unsigned place = 4; place > 0; place--) number = 2 * number + is_hit(first + 4 * (digit - 1) + place - 1, bit);
    mcdc_put("0123456789abcdef"[number]);
  }
}

int mcdc_write_record(void) {
  int has_failed = 0;
  keep();
  put_text(mcdc_head);
  put_text("tests ");
  put_number(run);
  mcdc_put('\n');
  for (unsigned test = 0; test < run; test++) {
    put_text("test ");
    put_text(mcdc_names[test]);
    mcdc_put(' ');
    put_text(mcdc_states[test]);
    mcdc_put('\n');
    if (mcdc_states[test][0] != 'p') has_failed = 1;
  }
  for (unsigned long bit = 0; bit < mcdc_bits; bit++) {
    put_text("bit ");
    put_number(bit);
    for (unsigned first = 0; first < run; first += 64) {
      mcdc_put(' ');
      put_word(first, bit);
    }
    mcdc_put('\n');
  }
  put_text("end\n");
  run = 0;
  is_open = 0;
  return has_failed;
}

#ifndef MCDC_BOARD
void mcdc_put(char character) {
  putchar(character);
}

/* The words are numbers of tests, which are run in this order. Without words it writes how many tests there are. */
int main(int count, char **words) {
  int status = 0;
  if (count < 2) {
    printf("%u\n", mcdc_tests);
  } else {
    for (int at = 1; at < count; at++) {
      unsigned long number = strtoul(words[at], NULL, 10);
      if (number < 1 || number > mcdc_tests || (unsigned)at > mcdc_rows) {
        fprintf(stderr, "usage: %s NUMBER.., from 1 to %u, at most %u at once\n", words[0], mcdc_tests, mcdc_rows);
        return 2;
      }
      mcdc_run((unsigned)number);
    }
    status = mcdc_write_record();
  }
  return fflush(stdout) == 0 && !ferror(stdout) ? status : 7;
}
#endif
