/* What the compiler calls on WebAssembly for numbers of 128 bits, and the guard round each call of the library. */
typedef unsigned long long word;
typedef unsigned __int128 wide;
typedef union {
  wide all;
  struct {
    word low, high;
  };
} halves;

static wide wide_of(word low, word high) {
  halves made;
  made.low = low;
  made.high = high;
  return made.all;
}

/* The product of two words, by the products of their halves. */
static wide product(word a, word b) {
  word low_a = a & 0xffffffff, high_a = a >> 32, low_b = b & 0xffffffff, high_b = b >> 32;
  word low = low_a * low_b, cross = high_a * low_b + (low >> 32), other = low_a * high_b + (cross & 0xffffffff);
  return wide_of(other << 32 | (low & 0xffffffff), high_a * high_b + (cross >> 32) + (other >> 32));
}

wide __multi3(wide a, wide b) {
  halves x = {a}, y = {b}, made = {product(x.low, y.low)};
  made.high += x.low * y.high + x.high * y.low;
  return made.all;
}

wide __ashlti3(wide a, int by) {
  halves x = {a};
  if (by & 64) return wide_of(0, x.low << (by & 63));
  return by ? wide_of(x.low << by, x.high << by | x.low >> (64 - by)) : a;
}

wide __lshrti3(wide a, int by) {
  halves x = {a};
  if (by & 64) return wide_of(x.high >> (by & 63), 0);
  return by ? wide_of(x.low >> by | x.high << (64 - by), x.high >> by) : a;
}

wide __ashrti3(wide a, int by) {
  halves x = {a};
  long long high = x.high;
  if (by & 64) return wide_of(high >> (by & 63), high >> 63);
  return by ? wide_of(x.low >> by | x.high << (64 - by), high >> by) : a;
}

/* A call that traps leaves the memory half written. So each call enters and leaves, and after one that didn't leave each further one traps.
 * retarget.py writes these calls round each export. */
static int is_inside;

_Bool __rattle_enter(void) {
  _Bool was = is_inside;
  is_inside = 1;
  return was;
}

void __rattle_leave(void) { is_inside = 0; }
