/* Part of C99's errno.h, for the kit's clang, which comes without headers. The function is glibc's. */
#ifndef KIT_ERRNO_H
#define KIT_ERRNO_H
int *__errno_location(void);
#define errno (*__errno_location())
#endif
