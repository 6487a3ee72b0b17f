// The levels of blocks of 32 by 32 in C (Rec. ITU-T H.265, 7.3.8.11), read in the form of crates/residual_read, with the works of
// crates/benchmark/src/levels.rt: how long each takes, the shortest of 20 rounds. Component 0, and the scan by diagonals.
#define LEVELS
#include "decoder.c"

struct place {
  uint8_t x, y;
};

static struct place PLACES[16], SUBS[64];  // by number, in a sub-block and of sub-blocks
static uint8_t NUMBERS[16], SUB_NUMBERS[64];

static void scan(int side, struct place *places, uint8_t *numbers) {
  int k = 0;
  for (int s = 0; s < 2 * side - 1; s++)
    for (int x = 0; x <= s; x++) {
      int y = s - x;
      if (x >= side || y >= side) continue;
      places[k] = (struct place){x, y};
      numbers[side * y + x] = k++;
    }
}

// the part of sigCtx that a place gives, by its number, for each pair of flags of the sub-blocks below and on the right
static const uint8_t WITHIN[64] = {
    2, 1, 1, 1, 1, 1, 0, 0, 0, 0, 0, 0, 0, 0, 0, 0, 2, 1, 2, 0, 1, 2, 0, 0, 1, 2, 0, 0, 1, 0, 0, 0,
    2, 2, 1, 2, 1, 0, 2, 1, 0, 0, 1, 0, 0, 0, 0, 0, 2, 2, 2, 2, 2, 2, 2, 2, 2, 2, 2, 2, 2, 2, 2, 2,
};

static int last_context(int vertical, int i) { return (vertical ? 31 : 13) + 10 + (i >> 1); }

// ---- written

static int prefix_of(int value) { return value < 4 ? value : value < 8 ? 4 + (value - 4) / 2 : value < 16 ? 6 + (value - 8) / 4 : 8 + (value - 16) / 8; }

static void write_prefix(struct coder *c, int vertical, int prefix) {
  for (int i = 0; i < prefix; i++) context_bin(c, last_context(vertical, i), 1);
  if (prefix < 9) context_bin(c, last_context(vertical, prefix), 0);
}

static void write_suffix(struct coder *c, int value, int prefix) {
  if (prefix < 4) return;
  int bits = prefix / 2 - 1;
  bypass(c, value - ((2 + prefix % 2) << bits), bits);
}

static void write_remaining(struct coder *c, int rice, int rest) {
  int prefix = rest >> rice;
  if (prefix < 4) {
    bypass(c, (2 << prefix) - 2, prefix + 1);
    if (rice) bypass(c, rest & ((1 << rice) - 1), rice);
    return;
  }
  bypass(c, 15, 4);
  rest -= 4 << rice;
  int k = rice + 1;
  for (; rest >= 1 << k; k++) {
    bypass(c, 1, 1);
    rest -= 1 << k;
  }
  bypass(c, 0, 1);
  bypass(c, rest, k);
}

static int context_set(int number, int ended) { return (number ? 2 : 0) + ended; }

static void write_block(struct coder *c, const int16_t *levels) {
  uint8_t coded[81] = {0};
  int number = 63, top = 15, ended = 0, first = 1;
  for (;; number--) {
    for (top = 15; top >= 0; top--)
      if (levels[32 * (4 * SUBS[number].y + PLACES[top].y) + 4 * SUBS[number].x + PLACES[top].x]) break;
    if (top >= 0) break;
  }
  int x = 4 * SUBS[number].x + PLACES[top].x, y = 4 * SUBS[number].y + PLACES[top].y;
  write_prefix(c, 0, prefix_of(x));
  write_prefix(c, 1, prefix_of(y));
  write_suffix(c, x, prefix_of(x));
  write_suffix(c, y, prefix_of(y));
  for (; number >= 0; number--, first = 0) {
    int sx = SUBS[number].x, sy = SUBS[number].y, right = coded[9 * sy + sx + 1], below = coded[9 * sy + 9 + sx];
    int values[16], many = 0, mask = 0;
    for (int k = 15; k >= 0; k--) {
      int v = levels[32 * (4 * sy + PLACES[k].y) + 4 * sx + PLACES[k].x];
      if (v) values[many++] = v, mask |= 1 << k;
    }
    int flag = first || number == 0 || many > 0;
    if (!first && number) context_bin(c, 49 + (right | below), flag);
    coded[9 * sy + sx] = flag;
    if (!flag) continue;
    for (int k = first ? top - 1 : 15; k >= 0; k--) {
      if (k == 0 && !first && number && !(mask >> 1)) continue;
      int within = sx + sy + k == 0 ? 0 : WITHIN[32 * below + 16 * right + k] + (sx + sy ? 24 : 21);
      context_bin(c, 53 + within, mask >> k & 1);
    }
    if (!many) continue;
    int set = context_set(number, ended), counter = 1, large = -1;
    uint32_t signs = 0;
    for (int i = 0; i < many && i < 8; i++) {
      int one = abs(values[i]) > 1;
      context_bin(c, 95 + 4 * set + (counter < 3 ? counter : 3), one);
      if (one && large < 0) large = i;
      counter = one || counter == 0 ? 0 : counter + 1;
    }
    ended = counter == 0;
    if (large >= 0) context_bin(c, 119 + set, abs(values[large]) > 2);
    for (int i = 0; i < many; i++) signs = 2 * signs + (values[i] < 0);
    bypass(c, signs >> 8, many > 8 ? many - 8 : 0);
    if (many > 8) bypass(c, signs & 255, 8); else bypass(c, signs, many);
    int rice = 0;
    for (int i = 0; i < many; i++) {
      int size = abs(values[i]), base = i >= 8 ? 1 : large < 0 || i < large ? 2 : i == large ? 3 : 2;
      if (size < base) continue;
      write_remaining(c, rice, size - base);
      if (size > 3 << rice && rice < 4) rice++;
    }
  }
}

// ---- read: what is less than 0 says that the bins end, or a level is too large

static int read_last_prefix(struct window *w, int vertical) {
  int ones = 0;
  while (ones < 9) {
    int bin = read_context(w, last_context(vertical, ones));
    if (bin <= 0) return bin < 0 ? -1 : ones;
    ones++;
  }
  return ones;
}

static int read_coordinate(struct window *w, int prefix) {
  if (prefix < 4) return prefix;
  int bits = prefix / 2 - 1;
  int64_t suffix = read_bypass(w, bits);
  return suffix < 0 ? -1 : ((2 + prefix % 2) << bits) + suffix;
}

static __attribute__((noinline)) int64_t read_bins(struct window *w, int rice) {
  int ones = 0;
  for (; ones < 20; ones++) {
    int64_t bin = read_bypass(w, 1);
    if (bin < 0) return -1;
    if (!bin) break;
  }
  if (ones == 20) return -1;
  int low = rice + (ones < 3 ? 0 : ones - 3);
  int64_t rest = 0;
  for (int i = 0; i < low; i++) {
    int64_t bin = read_bypass(w, 1);
    if (bin < 0) return -1;
    rest = 2 * rest + bin;
  }
  return ((int64_t)(ones < 4 ? ones : 2 + (1 << (ones - 3))) << rice) + rest;
}

static inline int64_t read_remaining(struct window *w, int rice) {
  if (!has(w, 20)) return read_bins(w, rice);
  uint32_t digits = (uint32_t)(w->value >> 34) / w->range;
  int ones = __builtin_clz(2 * (0xFFFFF - digits) + 1) - 11;
  if (2 * ones + rice > 22) return read_bins(w, rice);
  int low = rice + (ones < 3 ? 0 : ones - 3), count = ones + 1 + low;
  uint32_t code = digits >> (20 - count);
  move_on(w, count, code * w->range);
  return ((ones < 4 ? ones : 2 + (1 << (ones - 3))) << rice) + (code & ((1u << low) - 1));
}

static int read_levels(struct window *w, int number, int inner, int *ended, uint32_t mask, int top, int right, int below, int16_t *out) {
  int sx = SUBS[number].x, sy = SUBS[number].y, start = 53 + (sx + sy ? 24 : 21);
  const uint8_t *within = WITHIN + 32 * below + 16 * right;
  int left = top;
  while (left > 1) {
    left--;
    int bin = read_context(w, start + within[left]);
    if (bin < 0) return 0;
    mask = 2 * mask + bin;
  }
  if (left > 0) {
    int bin = inner && mask == 0 ? 1 : read_context(w, sx + sy == 0 ? 53 : start + within[0]);
    if (bin < 0) return 0;
    mask = 2 * mask + bin;
  }
  int many = __builtin_popcount(mask);
  int set = context_set(number, *ended), counter = 1, flagged = many < 8 ? many : 8;
  uint32_t ones = 0;
  for (int i = 0; i < flagged; i++) {
    int bin = read_context(w, 95 + 4 * set + (counter < 3 ? counter : 3));
    if (bin < 0) return 0;
    ones = 2 * ones + bin;
    counter = bin || counter == 0 ? 0 : counter + 1;
  }
  int second = ones ? read_context(w, 119 + set) : 0;
  if (second < 0) return 0;
  int64_t signs = read_bypass(w, many);
  if (signs < 0) return 0;
  int16_t values[16];
  int rice = 0, seen = 0;
  for (int i = 0; i < many; i++) {
    int base = 1, more = 1;
    if (flagged > 0) {
      int flag = ones >> (flagged - 1) & 1;
      base = !flag ? 1 : seen ? 2 : 2 + second;
      more = !flag ? 0 : seen ? 1 : second;
      flagged--;
    }
    int64_t size = base;
    if (more) {
      int64_t rest = read_remaining(w, rice);
      if (rest < 0) return 0;
      size += rest;
      if (size > 255) return 0;
      if (size > 3 << rice && rice < 4) rice++;
    }
    values[i] = signs >> (many - 1 - i) & 1 ? -size : size;
    seen |= base > 1;
  }
  if (mask) *ended = ones != 0;
  int next = 0;
  for (int k = 15; k >= 0; k--)
    if (mask >> k & 1) out[32 * (4 * sy + PLACES[k].y) + 4 * sx + PLACES[k].x] = values[next++];
  return 1;
}

static int read_block(struct window *w, int16_t *out) {
  uint8_t coded[81] = {0};
  int xp = read_last_prefix(w, 0);
  if (xp < 0) return 0;
  int yp = read_last_prefix(w, 1);
  if (yp < 0) return 0;
  int x = read_coordinate(w, xp), y = read_coordinate(w, yp);
  if (x < 0 || y < 0) return 0;
  memset(out, 0, 2048);
  int number = SUB_NUMBERS[8 * (y / 4) + x / 4], top = NUMBERS[4 * (y % 4) + x % 4], ended = 0;
  if (!read_levels(w, number, 0, &ended, 1, top, 0, 0, out)) return 0;
  coded[9 * (y / 4) + x / 4] = 1;
  while (number-- > 0) {
    int sx = SUBS[number].x, sy = SUBS[number].y, right = coded[9 * sy + sx + 1], below = coded[9 * sy + 9 + sx];
    int flag = number ? read_context(w, 49 + (right | below)) : 1;
    if (flag < 0) return 0;
    coded[9 * sy + sx] = flag;
    if (flag && !read_levels(w, number, number > 0, &ended, 0, 16, right, below, out)) return 0;
  }
  return 1;
}

static size_t read_blocks(const uint8_t *code, size_t length, int blocks) {
  static int16_t out[1024];
  struct window w = {.bytes = code, .length = length};
  memcpy(w.contexts, START, sizeof START);
  if (!start(&w, 0)) return 0;
  size_t sum = 0;
  for (int block = 0; block < blocks; block++) {
    if (!read_block(&w, out)) return 0;
    sum += abs(out[sum % 1024]);
  }
  return sum;
}

int main(int words, char **word) {
  int blocks = words > 1 ? atoi(word[1]) : 256;
  scan(4, PLACES, NUMBERS);
  scan(8, SUBS, SUB_NUMBERS);
  size_t count = 1024 * (size_t)blocks;
  uint8_t *noise = malloc(count), *code = malloc(4 * count + 64);
  uint64_t state = 0x2545F4914F6CDD1D;
  for (size_t i = 0; i < count; i++) {
    state ^= state << 13;
    state ^= state >> 7;
    state ^= state << 17;
    noise[i] = state % 256;
  }
  const char *names[] = {"levels of noise", "small levels"};
  for (int small = 0; small < 2; small++) {
    struct coder c = {.out = code};
    memcpy(c.contexts, START, sizeof START);
    start_run(&c);
    for (int block = 0; block < blocks; block++) {
      int16_t levels[1024];
      for (int i = 0; i < 1024; i++) levels[i] = small ? (noise[1024 * block + i] - 128) / 32 : noise[1024 * block + i] - 128;
      write_block(&c, levels);
    }
    end_run(&c);
    size_t sum = 0;
    double shortest = 1e18;
    for (int round = 0; round < 20; round++) {
      struct timespec a, b;
      clock_gettime(CLOCK_MONOTONIC, &a);
      sum = read_blocks(code, c.length, blocks);
      clock_gettime(CLOCK_MONOTONIC, &b);
      double micros = (b.tv_sec - a.tv_sec) * 1e6 + (b.tv_nsec - a.tv_nsec) / 1e3;
      if (micros < shortest) shortest = micros;
    }
    printf("%s read in C: %zu\n  %.0f microseconds\n", names[small], sum, shortest);
  }
}
