/* Every insertion of docs/TARGET.md, and values at the ends of the types. It has no other purpose. */
typedef enum { BELOW = -1, LEVEL, ABOVE } Side;
typedef struct { short first; long long second; } Pair;
typedef void Nothing;

int mcdc_in(void);
void mcdc_out(int number);

/* Each test finds the initial values. */
static int ticks = 7;
static const signed char weights[4] = { 1, -2, 4, -8 };

static Nothing tick(int by) {
  static unsigned char calls;
  calls++;
  ticks += by;
  mcdc_out(calls);
}

static _Bool between(long low, long value, long high) {
  return low <= value && value < high;
}

/* Decisions inside of conditions, arguments, indexes and initial values; NOT; one that is a whole statement. */
int nested(int a, int b, int c) {
  int chosen = !(a && b) || c;
  int table[2] = { a < b, b < c };
  a < c;
  if (between(0, table[a != b] + (b > 0 || c > 0), 1 + !c) == chosen) return chosen ? a : b;
  return -chosen;
}

/* Operators that evaluate both operands: between Boolean operands they are of the decision, between others of none. */
unsigned both(unsigned a, unsigned b, unsigned c) {
  unsigned bits = (a < b) & (b < c);
  if ((a != c) | (a == 7u)) bits |= 2u;
  return bits ^ (a >= c) << 2;
}

/* Labels on each other, a label that runs on into the next one, a switch in a switch, none with a default. */
int labels(Side side, char mark) {
  int sum = 0;
  switch (side) {
  case BELOW:
  case LEVEL:
    sum += 1;
    switch (mark) {
    case 'a':
      sum += 10;
    case '\377':
      sum += 100;
    }
  case ABOVE:
    sum += 1000;
    break;
  case 7: {
    sum -= 1;
  }
  }
  return sum;
}

/* Each loop, with and without its parts. */
void loops(int count) {
  int left = count;
  for (int i = 0, j = count > 2; i < count && j < 5; i++, j += i == 1) {
    if (i == 1) continue;
    mcdc_out(i);
  }
  while (left > 0) left -= 2;
  do {
    left++;
    switch (left) {
    case 2: continue;
    case 4: break;
    default: mcdc_out(left);
    }
  } while (left < 5);
  for (;;) {
    if (!mcdc_in()) break;
    tick(2);
  }
  if (left == 6) return;
  else if (ticks > 9) {
    tick(-1);
    return;
  }
  ;
}

/* Each activation has its own registers. */
int depth(int n, int bound) {
  if (n > 0 && (depth(n - 1, bound) < bound || n == 3)) return n;
  return weights[n & 3];
}

/* Both operands of an operator are calls, in an order that the compiler chooses. */
int calls(int a, int b, int c) {
  return between(a, b, c) & !between(b, c, 9) | depth(a & 3, b) > 1;
}

static Pair swap(Pair pair) {
  Pair swapped = { (short)pair.second, pair.first };
  return swapped;
}

long long structures(short first, long second) {
  Pair pair = { first, second };
  pair = swap(pair);
  return pair.second < pair.first || pair.first < 0 ? pair.first : pair.second;
}

/* A condition is true where it differs from 0 in its own type. */
unsigned long wide(unsigned long value, long long other) {
  if (value && other) return value - 1ul;
  return other ? (unsigned long)other : value;
}

extern long const narrow(signed char value, _Bool flag, unsigned short other) {
  if (value && (flag || other)) return value;
  return -9223372036854775807 - 1;
}
