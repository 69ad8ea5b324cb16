#include <stddef.h>
typedef ptrdiff_t ssize_t;
enum { STDIN_FILENO, STDOUT_FILENO, STDERR_FILENO };
ssize_t read(int file, void *to, size_t most);
ssize_t write(int file, const void *from, size_t length);
