/* Part of C99's signal.h, for the kit's clang, which comes without headers. The function and the numbers are Linux's and glibc's. */
#ifndef KIT_SIGNAL_H
#define KIT_SIGNAL_H
#define SIGPIPE 13
#define SIG_IGN ((void (*)(int))1)
void (*signal(int number, void (*handler)(int)))(int);
#endif
