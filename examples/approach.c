/* The approach mode of an autopilot. Each cycle reads the deviations from the localizer and from
   the glide path, in hundredths of a dot, and whether they are valid, and puts out a bank angle. */
typedef enum { STANDBY, ARMED, TRACK, GO_AROUND } Mode;
typedef struct { int localizer; int glide; _Bool valid; } Beam;

extern int mcdc_in(void);
extern void mcdc_out(int bank);

static Mode mode;
static int recent[4];
static int oldest;

static int size(int deviation) {
  return deviation < 0 ? -deviation : deviation;
}

/* The mean of the last four deviations. */
static int smooth(int deviation) {
  int sum = 0;
  recent[oldest] = deviation;
  oldest = (oldest + 1) % 4;
  for (int i = 0; i < 4; i++) sum += recent[i];
  return sum / 4;
}

static void steer(int bank) {
  if (bank < -25 || 25 < bank) bank = bank < 0 ? -25 : 25;
  mcdc_out(bank);
}

/* One cycle: whether the button is pressed, the height in feet, and the distance to the runway in
   yards. Gives the mode. */
int cycle(int pressed, int height, int distance) {
  static const int gain[2] = { 4, 8 };
  Beam beam;
  beam.localizer = mcdc_in();
  beam.glide = mcdc_in();
  beam.valid = mcdc_in();
  if (!beam.valid || height < 0) {
    mode = STANDBY;
    return mode;
  }
  int centred = size(beam.localizer) < 80 && size(beam.glide) < 50;
  switch (mode) {
  case STANDBY:
    if (!pressed) break;
    mode = ARMED; /* and on to the next label */
  case ARMED:
    if ((height < 3000 && centred) || (height < 3000 && distance < 9000)) mode = TRACK;
    break;
  case TRACK:
    if (height < 200 && (!centred || 20 < height * 100 / distance)) mode = GO_AROUND;
    break;
  }
  if (mode == TRACK) steer(smooth(beam.localizer) / gain[centred && height < 500]);
  return mode;
}
