#include <stddef.h>
enum { EXIT_SUCCESS, EXIT_FAILURE };
_Noreturn void exit(int status);
