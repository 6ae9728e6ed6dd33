/* What a program of the toolchain asks for beside the C library: the number of the last error. For the test programs
 * over the archives (board/run). */
#include <errno.h>

int rattle_errno(void);
int rattle_errno(void) { return errno; }
