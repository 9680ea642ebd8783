/* Part of C99's stdbool.h, for the kit's clang, which comes without headers. */
#define bool _Bool
#define true 1
#define false 0
