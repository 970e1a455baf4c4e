/* What a driver and mcdc_record.c know of each other. runtime/driver.sh makes such a driver from a tests file. */
#ifndef MCDC_RECORD
#define MCDC_RECORD

/* Of the driver: the first three lines of each record of the source; the number of its bits; how many tests there are;
   of how many of them one run keeps the hits; and the memory for these, a row of `mcdc_row_bytes` for each test. */
extern const char mcdc_head[];
extern const unsigned long mcdc_bits;
extern const unsigned mcdc_tests;
extern const unsigned mcdc_rows;
extern const unsigned long mcdc_row_bytes;
extern unsigned char mcdc_hits[];
extern const char *mcdc_names[];
extern const char *mcdc_states[];

#ifdef MCDC_INLINE
/* Of the driver, where hits are stores (mcdc.h): a byte for each bit, which is 1 where the present test hit it. */
extern unsigned char mcdc_row[];
/* So the linker refuses a driver and an mcdc_record.c that differ in the form of hits. */
#define mcdc_test mcdc_test_inline
#endif

/* Of the driver: runs the test of this number, counted from 1. Its calls meet the values that objects with static
   storage duration have then, so a test that is to find the initial ones is the first of its run. */
void mcdc_run(unsigned number);

/* Begins a test, with what mcdc_in gives in it. Its state is `pass`, until something fails. */
void mcdc_test(const char *name, const int *inputs, unsigned count);

/* Comes before each call: the numbers that it has to put out, and how many they are; below 0 where nothing is
   expected. */
void mcdc_call(const int *outputs, int count);

/* Comes after each call. Its value is given as 64 bits, and with it whether its type has a sign. */
void mcdc_returned(unsigned long long value, int is_signed);
void mcdc_returned_void(void);

/* Comes after mcdc_returned: the number that was expected as 64 bits, and whether it is below 0. */
void mcdc_expect(unsigned long long number, int is_negative);

/* Writes the record of the tests that were run since the last one was written, and gives 0 where each passed, else 1. */
int mcdc_write_record(void);

/* The input and output of a test, as the source declares them. */
int mcdc_in(void);
void mcdc_out(int number);

/* Writes a character. Where MCDC_BOARD is defined, mcdc_record.c has neither this nor `main`: the board has both. */
void mcdc_put(char character);

#endif
