/* What the C programs of the tests need of the C library, declared here and not included, so that
 * they compile for x86-64 also on a machine that has no x86-64 headers. */
#ifndef PLAIN_H
#define PLAIN_H

#include <stddef.h>
#include <stdint.h>

#ifdef __cplusplus
extern "C" {
#endif
extern long read(int descriptor, void *to, size_t count);
extern long write(int descriptor, const void *from, size_t count);
#ifdef __cplusplus
}
#endif

/* Writes a text that ends in 0. */
static void say(const char *text) {
  size_t n = 0;
  while (text[n]) n++;
  while (n > 0) {
    long done = write(1, text, n);
    if (done <= 0) return;
    text += done;
    n -= (size_t)done;
  }
}

/* Writes a number in decimal. */
static void say_number(uint64_t n) {
  char digits[24];
  int at = 23;
  digits[at] = 0;
  do digits[--at] = (char)('0' + n % 10);
  while ((n /= 10) > 0);
  say(digits + at);
}

#endif
