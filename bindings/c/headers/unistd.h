/* Part of POSIX's unistd.h, for the kit's clang, which comes without headers. The function is glibc's. */
#ifndef KIT_UNISTD_H
#define KIT_UNISTD_H
int isatty(int file);
#endif
