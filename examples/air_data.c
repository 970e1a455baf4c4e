/* The airspeed of a flight. Each cycle reads three sensors. The speeds that agree are averaged, smoothed
   over three cycles and corrected by a table. The mode says how far they may be relied on. */
typedef enum { NORMAL, DEGRADED, FAILED } Mode;
typedef struct { int speed; int age; _Bool heated; } Sensor;
typedef struct { int speed; int count; } Vote;

extern int mcdc_in(void);
extern void mcdc_out(int number);

/* What is to be added to a speed in knots, from each of these speeds on. */
static const int from[6] = { 0, 60, 120, 180, 240, 300 };
static const int correction[6] = { 0, 1, 2, 4, 6, 9 };

static Sensor sensors[3];
static Mode mode;
static int recent[3];
static int filled;
static int good_cycles;

/* The last of the entries from `low` to `high` whose speed is not above this one, as that of `low` is not. */
static int entry(int speed, int low, int high) {
  if (low == high) return low;
  int middle = (low + high + 1) / 2;
  if (from[middle] <= speed) return entry(speed, middle, high);
  return entry(speed, low, middle - 1);
}

static int distance(int a, int b) {
  return a < b ? b - a : a - b;
}

/* Reads a sensor: its speed, which is below 0 where none came, and whether its tube is heated. */
static void take(int number) {
  int speed = mcdc_in();
  sensors[number].heated = mcdc_in();
  if (0 <= speed) {
    sensors[number].speed = speed;
    sensors[number].age = 0;
  } else {
    sensors[number].age++;
  }
}

static _Bool is_usable(Sensor sensor, _Bool icing) {
  return sensor.age < 2 && (sensor.heated || !icing);
}

/* The mean of the usable speeds that lie within 10 knots of another one, and how many they are. */
static Vote vote(_Bool icing) {
  Vote result = { 0 };
  for (int i = 0; i < 3; i++) {
    int next = (i + 1) % 3;
    int last = (i + 2) % 3;
    if (!is_usable(sensors[i], icing)) continue;
    if ((is_usable(sensors[next], icing) && distance(sensors[i].speed, sensors[next].speed) <= 10)
        || (is_usable(sensors[last], icing) && distance(sensors[i].speed, sensors[last].speed) <= 10)) {
      result.speed += sensors[i].speed;
      result.count++;
    }
  }
  if (result.count > 0) result.speed /= result.count;
  return result;
}

/* The mean of the last three speeds, or of as many as there were. */
static int smooth(int speed) {
  int sum = 0;
  int i = 2;
  while (i > 0) {
    recent[i] = recent[i - 1];
    i--;
  }
  recent[0] = speed;
  if (filled < 3) filled++;
  do {
    sum += recent[i];
    i++;
  } while (i < filled);
  return sum / filled;
}

/* One cycle, in icing conditions or not. Puts out the speed, if there is one, and gives the mode. */
int cycle(int icing) {
  for (int i = 0; i < 3; i++) take(i);
  Vote now = vote(icing);
  _Bool is_good = now.count == 3;
  good_cycles = is_good ? good_cycles + 1 : 0;
  switch (mode) {
  case NORMAL:
    if (!is_good) mode = now.count ? DEGRADED : FAILED;
    break;
  case DEGRADED:
    if (now.count == 0) mode = FAILED;
    else if (good_cycles >= 2) mode = NORMAL;
    break;
  default:
    if (is_good) mode = DEGRADED;
  }
  if (mode == FAILED) {
    filled = 0;
    return mode;
  }
  int speed = smooth(now.speed);
  mcdc_out(speed + correction[entry(speed, 0, 5)]);
  return mode;
}
