/* no call of tests/page/program.js is interrupted */
enum { errno = 0, EINTR = 1 };
