/* What a program for aarch64 is linked with: rattle_errno of the kit's library `os`, the calling
 * thread's errno, which the kit has for x86-64 alone (tools/aarch64). */
#include <errno.h>

int rattle_errno(void)
{
    return errno;
}
