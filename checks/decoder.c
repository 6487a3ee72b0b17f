// The arithmetic decoding engine in C (Rec. ITU-T H.265, 9.3.4.3), in the form of crates/cabac_dec and with the works of
// crates/benchmark/src/decoder.rt: how long each takes, the shortest of 20 rounds. What it reads was written by checks/coder.c.
#define main coder_main
#include "coder.c"
#undef main

struct window {
  const uint8_t *bytes;
  size_t length, next;
  uint64_t value;  // the offset in the ten highest bits, bits not read yet below it
  uint32_t ahead;  // how many bits not read yet
  uint32_t range;
  uint8_t contexts[130];
};

static inline __attribute__((always_inline)) int refill(struct window *w, uint32_t count) {
  size_t rest = w->length - w->next, some = rest < 4 ? rest : 4;
  uint32_t word = 0;
  if (rest >= 4) {
    memcpy(&word, w->bytes + w->next, 4);
    word = __builtin_bswap32(word);
  } else {
    for (size_t i = 0; i < rest; i++) word = word << 8 | w->bytes[w->next + i];
  }
  w->value += (uint64_t)word << (54 - w->ahead - 8 * some);
  w->next += some;
  w->ahead += 8 * some;
  return count <= w->ahead;
}

static inline int has(struct window *w, uint32_t count) { return count <= w->ahead || refill(w, count); }

static inline void move_on(struct window *w, uint32_t count, uint32_t less) {
  w->value = (w->value - ((uint64_t)less << (54 - count))) << count;
  w->ahead -= count;
}

static inline int renormalise(struct window *w, uint32_t range) {
  if (range >= 256) {
    w->range = range;
    return 1;
  }
  uint32_t doublings = __builtin_clz(range) - 23;
  if (!has(w, doublings)) return 0;
  move_on(w, doublings, 0);
  w->range = range << doublings;
  return 1;
}

// a bin, or -1 where the bits end
static inline int read_context(struct window *w, int n) {
  int state = w->contexts[n], likely = state & 1;
  uint32_t small = LPS[state >> 1] >> (w->range >> 3 & 24) & 255, large = w->range - small;
  if (w->value < (uint64_t)large << 54) {
    w->contexts[n] = NEXT[2 * state + likely];
    return renormalise(w, large) ? likely : -1;
  }
  w->contexts[n] = NEXT[2 * state + !likely];
  move_on(w, 0, large);
  return renormalise(w, small) ? !likely : -1;
}

static inline int64_t read_bypass(struct window *w, uint32_t count) {
  if (!has(w, count)) return -1;
  uint32_t value = (uint32_t)(w->value >> (54 - count)) / w->range;
  move_on(w, count, value * w->range);
  return value;
}

static inline int read_end(struct window *w) {
  uint32_t range = w->range - 2;
  if (w->value < (uint64_t)range << 54) return renormalise(w, range) ? 0 : -1;
  w->range = range;
  return 1;
}

static int start(struct window *w, size_t next) {
  w->next = next;
  w->value = 0;
  w->ahead = 0;
  if (!has(w, 9)) return 0;
  move_on(w, 9, 0);
  w->range = 510;
  return w->value < (uint64_t)510 << 54;
}

static int read_samples(struct window *w, uint8_t *out, size_t count) {
  uint32_t spare = w->ahead % 8;
  size_t at = w->next - w->ahead / 8;
  if ((w->bytes[at - 1] & ((2u << spare) - 1)) != 1u << spare || w->length - at < count) return 0;
  memcpy(out, w->bytes + at, count);
  return start(w, at + count);
}

static size_t decode(enum work work, const uint8_t *noise, size_t count, const uint8_t *code, size_t length) {
  static uint8_t samples[3072];
  struct window w = {.bytes = code, .length = length};
  memcpy(w.contexts, START, sizeof START);
  if (!start(&w, 0)) return 0;
  size_t sum = 0;
  switch (work) {
    case RANDOM:
    case PREDICTABLE:
      for (size_t i = 0; i < 2 * count; i += 2) {
        int bin = read_context(&w, noise[i + 1] / 2);
        if (bin < 0) return 0;
        sum += bin;
      }
      break;
    case BYPASS:
      for (size_t i = 0; i < count / 16; i++) {
        int64_t value = read_bypass(&w, 16);
        if (value < 0) return 0;
        sum += value;
      }
      break;
    case SAMPLES:
      for (size_t i = 0; i + 3072 <= count; i += 3072) {
        if (read_end(&w) != 1 || !read_samples(&w, samples, 3072)) return 0;
        sum += samples[sum % 3072];
      }
  }
  return sum;
}

#ifndef LEVELS  // checks/levels.c has a main of its own
int main(int words, char **word) {
  size_t count = words > 1 ? (size_t)atol(word[1]) : 1 << 20;
  uint8_t *noise = malloc(2 * count), *code = malloc(2 * count + 64);
  uint64_t state = 0x2545F4914F6CDD1D;
  for (size_t i = 0; i < 2 * count; i++) {
    state ^= state << 13;
    state ^= state >> 7;
    state ^= state << 17;
    noise[i] = state % 256;
  }
  const char *names[] = {"random context bins", "predictable bins", "bypass bins", "samples"};
  for (int work = RANDOM; work <= SAMPLES; work++) {
    size_t length = run(work, noise, count, code), sum = 0;
    double shortest = 1e18;
    for (int round = 0; round < 20; round++) {
      struct timespec a, b;
      clock_gettime(CLOCK_MONOTONIC, &a);
      sum = decode(work, noise, count, code, length);
      clock_gettime(CLOCK_MONOTONIC, &b);
      double micros = (b.tv_sec - a.tv_sec) * 1e6 + (b.tv_nsec - a.tv_nsec) / 1e3;
      if (micros < shortest) shortest = micros;
    }
    printf("%s read in C: %zu\n  %.0f microseconds\n", names[work], sum, shortest);
  }
}
#endif
