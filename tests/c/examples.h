/* The examples of document 01, run on the library and on the reference. */
#ifndef EXAMPLES_H
#define EXAMPLES_H

#include <stdbool.h>

/* Prints what an example should have given, and returns false, where one fails. */
bool run_examples(void);

#endif
