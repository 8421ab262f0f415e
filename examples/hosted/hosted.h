/* What a hosted guest in C has beside the C library: the secret, as a stream.
 *
 * stdin is the public input, stdout and stderr are the output, and `secret` is the secret. The guest begins at `main`
 * and exits with what it returns, or by `exit`. hosted.c has the start and the streams, and the Makefile the options. */
#ifndef HOSTED_H
#define HOSTED_H

#include <stdio.h>

extern FILE *const secret;

#endif
