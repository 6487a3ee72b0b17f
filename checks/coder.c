// The arithmetic code in C (Rec. ITU-T H.265, 9.3.5), with the works of crates/benchmark/src/coder.rt: how long each takes, the shortest of 20
// rounds. The tables are those of the standard.
#include <stdint.h>
#include <stdio.h>
#include <stdlib.h>
#include <string.h>
#include <time.h>

// rangeTabLps: the four shares of a state as bytes, the lowest first
static const uint32_t LPS[63] = {
    0xF0D0B080, 0xE3C5A780, 0xD8BB9E80, 0xCDB2967B, 0xC3A98E74, 0xB9A0876F, 0xAF988069, 0xA6907A64,
    0x9E89745F, 0x96826E5A, 0x8E7B6855, 0x87756351, 0x806F5E4D, 0x7A695949, 0x74645545, 0x6E5F5042,
    0x685A4C3E, 0x6356483B, 0x5E514538, 0x594D4135, 0x55493E33, 0x50453B30, 0x4C42382E, 0x483F352B,
    0x453B3229, 0x41383027, 0x3E362D25, 0x3B332B23, 0x38302921, 0x352E2720, 0x322B251E, 0x3029231D,
    0x2D27211B, 0x2B251F1A, 0x29231E18, 0x27211C17, 0x25201B16, 0x231E1A15, 0x211D1814, 0x1F1B1713,
    0x1E1A1612, 0x1C191511, 0x1B171410, 0x1916130F, 0x1815120E, 0x1714110E, 0x1613100D, 0x15120F0C,
    0x14110E0C, 0x13100E0B, 0x120F0D0B, 0x110F0C0A, 0x100E0C0A, 0x0F0D0B09, 0x0E0C0B09, 0x0E0C0A08,
    0x0D0B0908, 0x0C0B0907, 0x0C0A0907, 0x0B0A0807, 0x0B090806, 0x0A090706, 0x09080706,
};

// for each byte of a context, the byte after a bin 0 and after a bin 1
static const uint8_t NEXT[252] = {
    2, 1, 0, 3, 4, 0, 1, 5, 6, 2, 3, 7, 8, 4, 5, 9, 10, 4, 5, 11, 12, 8, 9, 13, 14, 8, 9, 15, 16,
    10, 11, 17, 18, 12, 13, 19, 20, 14, 15, 21, 22, 16, 17, 23, 24, 18, 19, 25, 26, 18, 19, 27, 28,
    22, 23, 29, 30, 22, 23, 31, 32, 24, 25, 33, 34, 26, 27, 35, 36, 26, 27, 37, 38, 30, 31, 39, 40,
    30, 31, 41, 42, 32, 33, 43, 44, 32, 33, 45, 46, 36, 37, 47, 48, 36, 37, 49, 50, 38, 39, 51, 52,
    38, 39, 53, 54, 42, 43, 55, 56, 42, 43, 57, 58, 44, 45, 59, 60, 44, 45, 61, 62, 46, 47, 63, 64,
    48, 49, 65, 66, 48, 49, 67, 68, 50, 51, 69, 70, 52, 53, 71, 72, 52, 53, 73, 74, 54, 55, 75, 76,
    54, 55, 77, 78, 56, 57, 79, 80, 58, 59, 81, 82, 58, 59, 83, 84, 60, 61, 85, 86, 60, 61, 87, 88,
    60, 61, 89, 90, 62, 63, 91, 92, 64, 65, 93, 94, 64, 65, 95, 96, 66, 67, 97, 98, 66, 67, 99, 100,
    66, 67, 101, 102, 68, 69, 103, 104, 68, 69, 105, 106, 70, 71, 107, 108, 70, 71, 109, 110, 70,
    71, 111, 112, 72, 73, 113, 114, 72, 73, 115, 116, 72, 73, 117, 118, 74, 75, 119, 120, 74, 75,
    121, 122, 74, 75, 123, 124, 76, 77, 125, 124, 76, 77, 125,
};

// the contexts at the start of an I slice, at the quantisation parameter 26
static const uint8_t START[130] = {
    1, 0, 31, 49, 1, 1, 1, 1, 1, 1, 16, 31, 0, 15, 15, 0, 15, 15, 14, 15, 47, 15, 0, 31, 63, 47, 31,
    0, 16, 16, 16, 15, 15, 0, 15, 15, 14, 15, 47, 15, 0, 31, 63, 47, 31, 0, 16, 16, 16, 48, 33, 80,
    31, 31, 31, 15, 15, 15, 0, 0, 16, 0, 32, 15, 31, 78, 14, 15, 32, 15, 31, 78, 14, 15, 32, 15, 31,
    78, 14, 15, 15, 0, 30, 30, 30, 48, 30, 48, 14, 48, 0, 31, 48, 0, 31, 15, 32, 32, 16, 15, 30, 16,
    0, 14, 80, 78, 32, 0, 32, 32, 30, 15, 78, 46, 30, 15, 30, 32, 30, 16, 14, 48, 30, 30, 30, 1, 1,
    1, 1, 1,
};

struct coder {
  uint64_t low;
  uint32_t range;
  uint32_t width;  // how many digits low has, but for a carry: 9 to 41
  int held;        // a byte that a carry may still reach, or -1
  uint32_t run;    // how many bytes 255 follow it
  uint8_t contexts[130];
  uint8_t *out;
  size_t length;
};

static void pass_on(struct coder *c, uint32_t lead) {
  if (c->held >= 0) {
    if (lead == 255) {
      c->run++;
      return;
    }
    uint32_t carry = lead >> 8;
    c->out[c->length++] = c->held + carry;
    for (; c->run > 0; c->run--) c->out[c->length++] = 255 + carry;
  }
  c->held = lead & 255;
}

static void pass_slowly(struct coder *c, uint64_t lead, int count) {
  while (count-- > 0) {
    pass_on(c, lead >> (8 * count));
    lead &= ((uint64_t)1 << (8 * count)) - 1;
  }
}

// Four bytes at once. The byte that is held takes the carry, and the last one is held then.
static __attribute__((noinline)) void pass_four(struct coder *c) {
  c->width -= 32;
  uint64_t lead = c->low >> c->width;
  c->low &= ((uint64_t)1 << c->width) - 1;
  if (c->held < 0 || c->run > 0 || (lead & 255) == 255) {
    pass_slowly(c, lead, 4);
    return;
  }
  uint32_t four = __builtin_bswap32(((uint32_t)c->held << 24) + (uint32_t)(lead >> 8));
  memcpy(c->out + c->length, &four, 4);
  c->length += 4;
  c->held = lead & 255;
}

static inline void advance(struct coder *c, uint32_t count) {
  c->width += count;
  if (__builtin_expect(c->width > 41, 0)) pass_four(c);
}

// Without branches, as bins are hard to foretell: unlikely is all ones or zero.
static inline void context_bin(struct coder *c, int n, int value) {
  uint32_t state = c->contexts[n];
  uint32_t small = LPS[state >> 1] >> (c->range >> 3 & 24) & 255, large = c->range - small;
  uint32_t unlikely = -((state ^ (uint32_t)value) & 1);
  uint32_t once = large >> 8 ^ 1, often = __builtin_clz(small) - 23;
  uint32_t more = large << once, less = small << often;
  uint32_t doublings = once ^ ((once ^ often) & unlikely);
  c->contexts[n] = NEXT[2 * state + value];
  c->low = (c->low + (large & unlikely)) << doublings;
  c->range = more ^ ((more ^ less) & unlikely);
  advance(c, doublings);
}

static inline void bypass(struct coder *c, uint32_t value, int count) {
  c->low = (c->low << count) + (uint64_t)value * c->range;
  advance(c, count);
}

static void start_run(struct coder *c) {
  c->low = 0;
  c->range = 510;
  c->width = 9;
  c->held = -1;
  c->run = 0;
}

static void end_run(struct coder *c) {
  int count = (c->width + 7) / 8;
  pass_slowly(c, ((c->low + c->range - 2) / 2 * 2 + 1) << (8 * count - c->width), count);
  c->out[c->length++] = c->held;
  for (; c->run > 0; c->run--) c->out[c->length++] = 255;
}

enum work { RANDOM, PREDICTABLE, BYPASS, SAMPLES };

static size_t run(enum work work, const uint8_t *noise, size_t count, uint8_t *out) {
  struct coder c = {.out = out};
  memcpy(c.contexts, START, sizeof START);
  start_run(&c);
  int below = work == RANDOM ? 128 : 1;
  switch (work) {
    case RANDOM:
    case PREDICTABLE:
      for (size_t i = 0; i < 2 * count; i += 2) context_bin(&c, noise[i + 1] / 2, noise[i] < below);
      break;
    case BYPASS:
      for (size_t i = 0; i + 1 < count / 8; i += 2) bypass(&c, noise[i] << 8 | noise[i + 1], 16);
      break;
    case SAMPLES:
      for (size_t i = 0; i + 3072 <= count; i += 3072) {
        end_run(&c);
        memcpy(c.out + c.length, noise + i, 3072);
        c.length += 3072;
        start_run(&c);
      }
  }
  end_run(&c);
  return c.length;
}

int main(int words, char **word) {
  size_t count = words > 1 ? (size_t)atol(word[1]) : 1 << 20;
  uint8_t *noise = malloc(2 * count), *out = malloc(2 * count + 64);
  uint64_t state = 0x2545F4914F6CDD1D;
  for (size_t i = 0; i < 2 * count; i++) {
    state ^= state << 13;
    state ^= state >> 7;
    state ^= state << 17;
    noise[i] = state % 256;
  }
  const char *names[] = {"random context bins", "predictable bins", "bypass bins", "samples"};
  for (int work = RANDOM; work <= SAMPLES; work++) {
    size_t length = 0;
    double shortest = 1e18;
    for (int round = 0; round < 20; round++) {
      struct timespec a, b;
      clock_gettime(CLOCK_MONOTONIC, &a);
      length = run(work, noise, count, out);
      clock_gettime(CLOCK_MONOTONIC, &b);
      double micros = (b.tv_sec - a.tv_sec) * 1e6 + (b.tv_nsec - a.tv_nsec) / 1e3;
      if (micros < shortest) shortest = micros;
    }
    printf("%s in C: %zu\n  %.0f microseconds\n", names[work], length, shortest);
  }
}
