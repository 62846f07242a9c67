// Outside, in QEMU (LD_PRELOAD): answers what its serial port asks for its modem lines, with DCD as
// the first byte of the file DCD has it, H or L.   cc -O2 -shared -fPIC -o modem.so modem.c -ldl
#define _GNU_SOURCE
#include <dlfcn.h>
#include <fcntl.h>
#include <stdarg.h>
#include <stdlib.h>
#include <sys/ioctl.h>
#include <sys/mman.h>
#include <unistd.h>

// The byte in which the state is, or none.
static volatile char *state(void) {
  static volatile char *found;
  const char *name = getenv("DCD");
  if (found || !name) return found;
  int file = open(name, O_RDONLY);
  void *page = file < 0 ? MAP_FAILED : mmap(0, 1, PROT_READ, MAP_SHARED, file, 0);
  if (file >= 0) close(file);
  if (page != MAP_FAILED) found = page;
  return found;
}

int ioctl(int descriptor, unsigned long asked, ...) {
  static int (*real)(int, unsigned long, ...);
  va_list words;
  va_start(words, asked);
  void *word = va_arg(words, void *);
  va_end(words);
  if (!real) real = (int (*)(int, unsigned long, ...))dlsym(RTLD_NEXT, "ioctl");
  if (asked == TIOCMSET) return 0;
  if (asked != TIOCMGET) return real(descriptor, asked, word);
  volatile char *dcd = state();
  *(int *)word = TIOCM_DTR | TIOCM_RTS | TIOCM_CTS | TIOCM_DSR | (dcd && *dcd == 'H' ? TIOCM_CAR : 0);
  return 0;
}
