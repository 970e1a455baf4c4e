/* The coder and the decoder of IMA ADPCM, which make 4 bits of a sample of 16, over a signal of any length. */
static const int step_of[89] = {
  7, 8, 9, 10, 11, 12, 13, 14, 16, 17, 19, 21, 23, 25, 28, 31, 34, 37, 41, 45, 50, 55, 60, 66, 73, 80, 88, 97, 107, 118,
  130, 143, 157, 173, 190, 209, 230, 253, 279, 307, 337, 371, 408, 449, 494, 544, 598, 658, 724, 796, 876, 963, 1060,
  1166, 1282, 1411, 1552, 1707, 1878, 2066, 2272, 2499, 2749, 3024, 3327, 3660, 4026, 4428, 4871, 5358, 5894, 6484, 7132,
  7845, 8630, 9493, 10442, 11487, 12635, 13899, 15289, 16818, 18500, 20350, 22385, 24623, 27086, 29794, 32767
};
static const int move_of[8] = { -1, -1, -1, -1, 2, 4, 6, 8 };

/* What coder and decoder both know: the sample that they expect, and the step. */
typedef struct { int sample; int index; } State;

static int within(int value, int low, int high) {
  if (value < low) return low;
  return value > high ? high : value;
}

static int coded(State state, int sample) {
  int code = 0;
  int step = step_of[state.index];
  int distance = sample - state.sample;
  if (distance < 0) {
    code = 8;
    distance = -distance;
  }
  for (int bit = 4; bit > 0; bit = bit / 2) {
    if (distance >= step) {
      code += bit;
      distance -= step;
    }
    step = step / 2;
  }
  return code;
}

static State decoded(State state, int code) {
  int step = step_of[state.index];
  int distance = step / 8;
  if (code & 4) distance += step;
  if (code & 2) distance += step / 2;
  if (code & 1) distance += step / 4;
  state.sample = within(code >= 8 ? state.sample - distance : state.sample + distance, -32768, 32767);
  state.index = within(state.index + move_of[code & 7], 0, 88);
  return state;
}

/* Codes and decodes a triangle of this height with noise of this width: a checksum of the codes. */
int transmit(int samples, int height, int noise) {
  State state = { 0, 0 };
  unsigned random = 1u;
  int sum = 0;
  int sample = 0;
  int slope = 64;
  for (int count = 0; count < samples; count++) {
    random = random * 1664525u + 1013904223u;
    if (sample >= height || sample <= -height) slope = sample > 0 ? -64 : 64;
    sample += slope;
    int code = coded(state, within(sample + (int)(random >> 20) % (noise + 1), -32768, 32767));
    state = decoded(state, code);
    sum = (sum * 31 + code) % 65536;
  }
  return sum;
}
